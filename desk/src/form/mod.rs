//! A cabinet and a schedule in words: docs/FORMATS.md has the grammar.
//!
//! A text becomes tokens (`lexer`), then what it says (`parser`, `schedule`, in the types of `syntax`), then numbers (`assemble`); `print` goes the
//! other way. Nothing is judged here that the proved calls judge: a board that isn't there is theirs to refuse.
pub mod answers;
pub mod assemble;
mod cursor;
pub mod keywords;
pub mod lexer;
pub mod names;
pub mod parser;
pub mod print;
mod schedule;
pub mod syntax;

/// Whether a text begins as one in this form does: with a heading, or with a word that can't be hex digits.
pub fn is_words(text: &str) -> bool {
    let first = text.lines().map(|line| line.split('#').next().unwrap_or("")).flat_map(str::split_whitespace).next();
    first.is_some_and(|word| !word.chars().all(|c| c.is_ascii_hexdigit()))
}
