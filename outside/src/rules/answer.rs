//! The answer to a record: document 01, "What each move replies"; its cause, W-206, and from where a word on the bus came, W-212.

/// "One six-byte answer a record: code, a, word", W-206's cause, and W-212's "two bytes a record: sender and place".
#[derive(Clone, Copy, Debug, PartialEq, Eq)]
pub struct Answer {
    pub code: u8,
    pub a: u8,
    pub word: u32,
    pub cause: u8,
    pub origin: Origin,
}

/// W-212: "the place of its SEND and the sender".
#[derive(Clone, Copy, Debug, PartialEq, Eq)]
pub struct Origin {
    pub sender: u8,
    pub place: u8,
}

/// "255 and 0 for a feed that answers 4, 255 and 255 where no word was on the bus"
pub const FED: Origin = Origin { sender: 255, place: 0 };
pub const NOWHERE: Origin = Origin { sender: 255, place: 255 };

/// "0 done (0, 0)"
pub const DONE: Answer = Answer::new(0, 0, 0);

impl Answer {
    /// W-206: "The cause is 0 except here." Where it isn't, `because` says so. No word was on the bus, unless `sent` says from where.
    pub const fn new(code: u8, a: u8, word: u32) -> Answer {
        Answer { code, a, word, cause: 0, origin: NOWHERE }
    }

    /// "Refusals repeat a with word 0"
    pub fn refused(code: u8, a: usize) -> Answer {
        Answer::new(code, a as u8, 0)
    }

    pub fn because(self, cause: u8) -> Answer {
        Answer { cause, ..self }
    }

    pub fn sent(self, origin: Origin) -> Answer {
        Answer { origin, ..self }
    }

    /// W-206: "one byte a record: the answer's code times 4, plus a cause"
    pub fn reason(self) -> u8 {
        4 * self.code + self.cause
    }

    pub fn bytes(self) -> [u8; 6] {
        let w = self.word.to_be_bytes();
        [self.code, self.a, w[0], w[1], w[2], w[3]]
    }
}
