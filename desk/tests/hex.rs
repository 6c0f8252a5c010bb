//! `desk::input` reads what `tools/hex` reads: the same bytes, or a complaint about the same line.
use desk::input::{self, Kind};
use std::path::PathBuf;
use std::process::Command;

/// What `tools/hex` makes of a file: its bytes, or what it says where it ends with 2, from the line on.
fn converted(file: &str) -> Result<Vec<u8>, String> {
    let script = concat!(env!("CARGO_MANIFEST_DIR"), "/../tools/hex");
    let output = Command::new(script).arg(file).output().expect("tools/hex");
    if output.status.success() {
        return Ok(output.stdout);
    }
    assert_eq!((output.status.code(), output.stdout.len()), (Some(2), 0), "{file}");
    let said = String::from_utf8(output.stderr).expect("a message");
    let said = said.strip_prefix("hex: ").expect("its name").trim_end();
    Err(match said.split_once(" is no hex text: ") {
        Some((place, begins)) => {
            format!("{}: found `{}`, expected pairs of hex digits", place.replace(": line ", ":"), begins.trim())
        }
        None => said.to_string(),
    })
}

fn agrees(file: &str) -> Result<Vec<u8>, String> {
    let kind = std::fs::read(file).map_or(Kind::Hex, |bytes| if desk::hex::is_text(&bytes) { Kind::Hex } else { Kind::Bytes });
    let ours = input::bytes(kind, file).map_err(|failure| failure.said.join(" "));
    assert_eq!(ours, converted(file), "{file}");
    ours
}

#[test]
fn as_tools_hex() {
    let folder = std::env::temp_dir().join(format!("kunzeastylus-desk-{}", std::process::id()));
    std::fs::create_dir_all(&folder).expect("a temporary folder");
    let texts: [(&[u8], Option<&[u8]>); 18] = [
        (b"", Some(b"")),
        (b"\n", Some(b"")),
        (b"00 23 01", Some(&[0, 0x23, 1])),
        (b"0023\r\n\tfF  # pairs, 0 and x\n#\n00", Some(&[0, 0x23, 0xff, 0])),
        (b"# \xc3\xbc\nAbCd", Some(&[0xab, 0xcd])),
        (b"00#11\n22", Some(&[0, 0x22])),
        (b"\x00\x23\x01", Some(&[0, 0x23, 1])),
        (b"00\x7f", Some(b"00\x7f")),
        (b"00\x0c11", Some(b"00\x0c11")),
        (b"0", None),
        (b"00 1 1", None),
        (b"0 011", None),
        (b"00\n0x11", None),
        (b"00 hello", None),
        (b"00\n11\n2", None),
        (b"00 11 \xe9", None),
        (b"00 -1", None),
        (b"0000 0000 0000 0000 0000 0000 0000 0000 0000 0000 0000 0000 0000 0000 0000 g", None),
    ];
    for (i, (text, wanted)) in texts.iter().enumerate() {
        let file = folder.join(format!("{i}"));
        std::fs::write(&file, text).expect("a temporary file");
        assert_eq!(agrees(file.to_str().expect("a name")).ok().as_deref(), *wanted, "{:?}", String::from_utf8_lossy(text));
    }
    let long = folder.join("long");
    std::fs::write(&long, vec![b' '; input::MOST + 1]).expect("a temporary file");
    assert!(agrees(long.to_str().expect("a name")).is_err());
    for file in ["missing", ".", ""] {
        let path = folder.join(file);
        assert!(agrees(path.to_str().expect("a name")).is_err());
    }
    std::fs::remove_dir_all(&folder).expect("a temporary folder");
}

#[test]
fn samples() {
    let folder = PathBuf::from(concat!(env!("CARGO_MANIFEST_DIR"), "/../samples"));
    let mut many = 0;
    for entry in std::fs::read_dir(folder).expect("samples/") {
        let path = entry.expect("samples/").path();
        if path.extension().is_some_and(|extension| extension == "hex") {
            let bytes = agrees(path.to_str().expect("a name")).expect("a sample is hex text");
            assert!((1..=2).contains(&bytes[2]), "{}: begins with a table of version 1 or 2", path.display());
            many += 1;
        }
    }
    assert!(many >= 5);
}
