//! The form's tokens, line by line: words, numbers, the arrow and the colon; `#` begins a comment up to the end of its line.
use std::fmt;

/// Something that is wrong in a line, numbered from 1: what was found and what was expected.
#[derive(Clone, Debug, PartialEq, Eq, PartialOrd, Ord)]
pub struct Wrong {
    pub line: usize,
    pub what: String,
}

impl Wrong {
    pub fn new(line: usize, what: impl Into<String>) -> Wrong {
        Wrong { line, what: what.into() }
    }
}

#[derive(Clone, Debug, PartialEq, Eq)]
pub enum Token {
    /// A letter or `_`, then letters, digits, `_`, and `-` between two of these.
    Word(String),
    /// Decimal digits, or `0x` and hex digits, as it was written; it fits a word.
    Number(u32, String),
    Arrow,
    Colon,
}

impl fmt::Display for Token {
    fn fmt(&self, out: &mut fmt::Formatter) -> fmt::Result {
        match self {
            Token::Word(text) | Token::Number(_, text) => write!(out, "`{text}`"),
            Token::Arrow => write!(out, "`->`"),
            Token::Colon => write!(out, "`:`"),
        }
    }
}

/// The tokens of a line; lines with none are left out.
#[derive(Clone, Debug, PartialEq, Eq)]
pub struct Line {
    pub number: usize,
    pub tokens: Vec<Token>,
    /// Something behind these is no token, which is said already.
    pub broken: bool,
}

/// The lines of a text, and what in it is no token. Of a line with such a thing the tokens before it are there.
pub fn lines(text: &str) -> (Vec<Line>, Vec<Wrong>) {
    let (mut lines, mut wrong) = (Vec::new(), Vec::new());
    for (line, number) in text.lines().zip(1..) {
        let line = line.split('#').next().unwrap_or("");
        let mut tokens = Vec::new();
        let read = read(line, &mut tokens);
        let broken = read.is_err();
        wrong.extend(read.err().map(|what| Wrong::new(number, what)));
        if !tokens.is_empty() {
            lines.push(Line { number, tokens, broken });
        }
    }
    (lines, wrong)
}

/// Adds the tokens of a line, up to what is none.
fn read(line: &str, tokens: &mut Vec<Token>) -> Result<(), String> {
    let mut rest = line.trim_start();
    while let Some(first) = rest.chars().next() {
        let (token, length) = match first {
            '-' if rest.starts_with("->") => (Token::Arrow, 2),
            ':' => (Token::Colon, 1),
            _ if first.is_ascii_digit() => number(rest)?,
            _ if first.is_alphabetic() || first == '_' => word(rest),
            _ => return Err(format!("found `{}`, expected a word, a number, `->` or `:`", first.escape_debug())),
        };
        tokens.push(token);
        rest = rest[length..].trim_start();
    }
    Ok(())
}

/// How many bytes are letters, digits, `_`, and `-` before one of these.
fn run(text: &str) -> usize {
    let inside = |c: char| c.is_alphanumeric() || c == '_';
    let mut length = 0;
    for c in text.chars() {
        let behind = text[length + c.len_utf8()..].chars().next();
        let joined = c == '-' && behind.is_some_and(inside);
        if !inside(c) && !joined {
            break;
        }
        length += c.len_utf8();
    }
    length
}

fn word(rest: &str) -> (Token, usize) {
    let length = run(rest);
    (Token::Word(rest[..length].to_string()), length)
}

fn number(rest: &str) -> Result<(Token, usize), String> {
    let length = run(rest);
    let text = &rest[..length];
    let (digits, radix) = text.strip_prefix("0x").map_or((text, 10), |digits| (digits, 16));
    if digits.is_empty() || !digits.chars().all(|c| c.is_digit(radix)) {
        return Err(format!("found `{text}`, expected a number: decimal digits, or 0x and hex digits"));
    }
    let number = u32::from_str_radix(digits, radix);
    let number = number.map_err(|_| format!("found `{text}`, expected a number up to {}", u32::MAX))?;
    Ok((Token::Number(number, text.to_string()), length))
}

#[cfg(test)]
mod tests {
    use super::{lines, Line, Token, Wrong};

    #[test]
    fn told_apart() {
        let word = |text: &str| Token::Word(text.to_string());
        let number = |n: u32, text: &str| Token::Number(n, text.to_string());
        let (found, wrong) = lines("\n a->b-1 # c\r\nnext:0x1F 007\n\u{fc}ber _x\n# \n");
        assert_eq!(wrong, []);
        let wanted = [
            Line { number: 2, tokens: vec![word("a"), Token::Arrow, word("b-1")], broken: false },
            Line { number: 3, tokens: vec![word("next"), Token::Colon, number(31, "0x1F"), number(7, "007")], broken: false },
            Line { number: 4, tokens: vec![word("\u{fc}ber"), word("_x")], broken: false },
        ];
        assert_eq!(found, wanted);
        let (_, wrong) = lines("a $\n12ab\n0x\n4294967296\n4294967295\n-1");
        let told: Vec<(usize, &str)> = wrong.iter().map(|Wrong { line, what }| (*line, &what[..12])).collect();
        assert_eq!(
            told,
            [(1, "found `$`, e"), (2, "found `12ab`"), (3, "found `0x`, "), (4, "found `42949"), (6, "found `-`, e")]
        );
    }
}
