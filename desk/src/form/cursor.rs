//! One line's tokens, taken one after the other; what is not as expected says what was found and what was expected.
use super::keywords;
use super::lexer::{Line, Token, Wrong};
use super::syntax::Ref;

/// Tokens of a line, from some place on.
pub struct Cursor<'l> {
    line: &'l Line,
    at: usize,
}

impl<'l> Cursor<'l> {
    pub fn new(line: &'l Line) -> Cursor<'l> {
        Cursor { line, at: 0 }
    }

    pub fn peek(&self) -> Option<&'l Token> {
        self.line.tokens.get(self.at)
    }

    /// The token behind the next.
    pub fn behind(&self) -> Option<&'l Token> {
        self.line.tokens.get(self.at + 1)
    }

    pub fn skip(&mut self) {
        self.at += 1;
    }

    pub fn ended(&self) -> bool {
        self.at >= self.line.tokens.len()
    }

    /// Something else was expected than what is next.
    pub fn expected(&self, what: &str) -> Wrong {
        let found = self.peek().map_or("the end of the line".to_string(), |token| token.to_string());
        Wrong::new(self.line.number, format!("found {found}, expected {what}"))
    }

    pub fn end(&self) -> Result<(), Wrong> {
        match self.ended() {
            true => Ok(()),
            false => Err(self.expected("the end of the line")),
        }
    }

    /// Takes a keyword, if it is next.
    pub fn accept(&mut self, keyword: &str) -> bool {
        let next = matches!(self.peek(), Some(Token::Word(word)) if word == keyword);
        self.at += usize::from(next);
        next
    }

    pub fn keyword(&mut self, keyword: &str) -> Result<(), Wrong> {
        match self.accept(keyword) {
            true => Ok(()),
            false => Err(self.expected(&format!("`{keyword}`"))),
        }
    }

    pub fn arrow(&mut self) -> Result<(), Wrong> {
        match self.peek() {
            Some(Token::Arrow) => {
                self.skip();
                Ok(())
            }
            _ => Err(self.expected("`->`")),
        }
    }

    /// The word that is next.
    pub fn word(&self) -> Option<&'l str> {
        match self.peek() {
            Some(Token::Word(word)) => Some(word),
            _ => None,
        }
    }

    pub fn number(&mut self, what: &str) -> Result<u32, Wrong> {
        match self.peek() {
            Some(Token::Number(number, _)) => {
                self.skip();
                Ok(*number)
            }
            _ => Err(self.expected(what)),
        }
    }

    /// A number that fits a byte.
    pub fn byte(&mut self, what: &str) -> Result<u32, Wrong> {
        match self.peek() {
            Some(Token::Number(number, _)) if *number > 255 => Err(self.expected(&format!("{what}, 0 to 255"))),
            _ => self.number(what),
        }
    }

    /// A number, if one is next.
    pub fn maybe_number(&mut self) -> Option<u32> {
        self.number("").ok()
    }

    /// A new name, which is none of the form's own words.
    pub fn new_name(&mut self, what: &str) -> Result<String, Wrong> {
        match self.word() {
            Some(word) if keywords::free(word) => {
                self.skip();
                Ok(word.to_string())
            }
            Some(_) => Err(self.expected(&format!("{what}: that is a word of the form itself, so take another"))),
            None => Err(self.expected(what)),
        }
    }

    /// Something that has a name and a number.
    pub fn reference(&mut self, what: &str) -> Result<Ref, Wrong> {
        match self.peek() {
            Some(Token::Number(number, _)) => {
                self.skip();
                Ok(Ref::Number(*number))
            }
            Some(Token::Word(word)) if keywords::free(word) => {
                self.skip();
                Ok(Ref::Name(word.clone()))
            }
            _ => Err(self.expected(what)),
        }
    }

    pub fn register(&mut self) -> Result<u32, Wrong> {
        match self.word().and_then(keywords::register) {
            Some(register) if register < 4 => {
                self.skip();
                Ok(register)
            }
            _ => Err(self.expected("a register, r0 to r3")),
        }
    }
}
