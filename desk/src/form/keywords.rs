//! The words of the form, which no channel, program or label is called by.

/// What begins a line at the outside of everything.
pub const HEADINGS: [&str; 5] = ["cabinet", "boards", "channel", "program", "schedule"];

/// What begins an instruction.
pub const INSTRUCTIONS: [&str; 6] = ["set", "add", "take", "first", "send", "jump"];

/// What begins a line of a schedule.
pub const MOVES: [&str; 11] = ["feed", "step", "sync", "carry", "crash", "return", "resync", "back", "move", "settle", "expect"];

/// What stands within a line.
const OTHERS: [&str; 16] = [
    "outside",
    "on",
    "backup",
    "limit",
    "if",
    "until",
    "within",
    "why",
    "quiet",
    "not",
    "at",
    "unread",
    "held-back",
    "halted",
    "nothing",
    "empty",
];

/// Whether a word is none of the form's own: no keyword, no register and no count.
pub fn free(word: &str) -> bool {
    let known = [&HEADINGS[..], &INSTRUCTIONS, &MOVES, &OTHERS].iter().any(|words| words.contains(&word));
    !known && register(word).is_none() && count(word).is_none()
}

/// The number behind one letter.
fn numbered(word: &str, letter: char) -> Option<u32> {
    let digits = word.strip_prefix(letter)?;
    let plain = !digits.is_empty() && digits.bytes().all(|byte| byte.is_ascii_digit());
    plain.then(|| digits.parse().unwrap_or(u32::MAX))
}

/// The number of a register, `r0` and so on. There are four; what more is said is an error of its own.
pub fn register(word: &str) -> Option<u32> {
    numbered(word, 'r')
}

/// How many times, `x8` and so on.
pub fn count(word: &str) -> Option<u32> {
    numbered(word, 'x')
}

/// A list in words: `a, b or c`.
pub fn or(words: &[&str]) -> String {
    match words {
        [] => String::new(),
        [one] => one.to_string(),
        [first @ .., last] => format!("{} or {last}", first.join(", ")),
    }
}
