//! Why a command has no result, or not the one that was asked for: with which code it ends, and what is said.
use std::io;

/// With which code a command ends that doesn't end with 0.
#[derive(Clone, Copy, Debug, PartialEq, Eq)]
pub enum Exit {
    /// What was printed could not be written, or a fault of ours.
    Fault = 1,
    /// Wrong usage, or input that can't be read: the library was not asked.
    Unasked = 2,
    /// The library refused.
    Refused = 3,
    /// The result is not as it was required to be.
    Unmet = 4,
}

/// What is still shown on standard output, and what is said on standard error, a message each.
#[derive(Clone, Debug, PartialEq, Eq)]
pub struct Failure {
    pub exit: Exit,
    pub shown: String,
    pub said: Vec<String>,
}

impl Failure {
    fn new(exit: Exit, said: Vec<String>) -> Failure {
        Failure { exit, shown: String::new(), said }
    }

    /// The arguments are wrong, and what is wrong with them.
    pub fn usage(what: impl Into<String>) -> Failure {
        Failure::new(Exit::Unasked, vec![what.into()])
    }

    /// Input that can't be read, and why.
    pub fn unread(why: impl Into<String>) -> Failure {
        Failure::new(Exit::Unasked, vec![why.into()])
    }

    /// The same, with all that is wrong.
    pub fn all_unread(why: Vec<String>) -> Failure {
        Failure::new(Exit::Unasked, why)
    }

    /// The library refused, with this number of docs/NUMBERS.md, which is shown; said is what is wrong and where.
    pub fn refused(number: u8, why: Vec<String>) -> Failure {
        Failure { exit: Exit::Refused, shown: format!("refused {number}\n"), said: why }
    }

    /// The result, which is shown already, is not as it was required to be.
    pub fn unmet(why: Vec<String>) -> Failure {
        Failure::new(Exit::Unmet, why)
    }

    /// A fault of ours.
    pub fn fault(what: impl Into<String>) -> Failure {
        Failure::new(Exit::Fault, vec![what.into()])
    }

    /// The same with something else on standard output.
    pub fn showing(self, shown: String) -> Failure {
        Failure { shown, ..self }
    }
}

/// What can't be written. A reader that has gone away knows it.
impl From<io::Error> for Failure {
    fn from(error: io::Error) -> Failure {
        let said = match error.kind() {
            io::ErrorKind::BrokenPipe => Vec::new(),
            _ => vec![format!("standard output can't be written: {error}")],
        };
        Failure::new(Exit::Fault, said)
    }
}
