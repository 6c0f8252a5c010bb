//! Hex text, by the rules of `tools/hex`: pairs of hex digits, in capitals or not, with or without white space between pairs; `#` begins a
//! comment up to the end of its line.

/// A line, from 1, that has anything but pairs of digits, and how it begins.
#[derive(Clone, Debug, PartialEq, Eq)]
pub struct NoHex {
    pub line: usize,
    pub begins: String,
}

/// Bytes that have no control characters but tab, line feed and carriage return are taken for text. No sound table is: its version is 1 or 2.
pub fn is_text(bytes: &[u8]) -> bool {
    bytes.iter().all(|byte| !byte.is_ascii_control() || b"\t\n\r".contains(byte))
}

/// White space within a line.
fn space(byte: u8) -> bool {
    b" \t\r\x0b\x0c".contains(&byte)
}

/// The bytes that hex text stands for.
pub fn bytes(text: &[u8]) -> Result<Vec<u8>, NoHex> {
    with_lines(text).map(|(bytes, _)| bytes)
}

/// The same, and the line of each byte.
pub fn with_lines(text: &[u8]) -> Result<(Vec<u8>, Vec<usize>), NoHex> {
    let (mut bytes, mut lines) = (Vec::new(), Vec::new());
    for (line, number) in text.split(|&byte| byte == b'\n').zip(1..) {
        let line = line.split(|&byte| byte == b'#').next().unwrap_or(&[]);
        pairs(line, &mut bytes).ok_or_else(|| NoHex { line: number, begins: shown(line) })?;
        lines.resize(bytes.len(), number);
    }
    Ok((bytes, lines))
}

/// Adds a line's pairs, or none where it has anything else.
fn pairs(line: &[u8], bytes: &mut Vec<u8>) -> Option<()> {
    let digit = |byte: u8| (byte as char).to_digit(16).map(|value| value as u8);
    for word in line.split(|&byte| space(byte)) {
        for pair in word.chunks(2) {
            let [high, low] = *pair else { return None };
            bytes.push(16 * digit(high)? + digit(low)?);
        }
    }
    Some(())
}

/// The first 60 characters of a line, those that can't be shown as `?`.
fn shown(line: &[u8]) -> String {
    line.iter().take(60).map(|&byte| if (0x20..0x7f).contains(&byte) { byte as char } else { '?' }).collect()
}
