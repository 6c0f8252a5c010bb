//! The backup record, written from document 01, "The backup record", and document 02, and from nothing else.

/// W-207: "A saved list may now hold 64 words and a count 32; numbers 20, 22 and 24 follow"; document 01 has 48 and 16.
pub const WORDS_MOST: usize = 64;
pub const COUNT_MOST: u32 = 32;

/// "A value: up to 48 saved words with slots, count, place, registers."
#[derive(Clone, Debug, PartialEq, Eq)]
pub struct Record {
    /// Saved words, oldest first: slot and word.
    pub words: Vec<(u32, u32)>,
    pub count: u32,
    pub place: u32,
    pub registers: [u32; 4],
}

impl Record {
    /// "It starts with no words and the rest 0."
    pub fn new() -> Record {
        Record { words: Vec::new(), count: 0, place: 0, registers: [0; 4] }
    }

    /// "over 48 words, slot over 3, count over 16, place over 64"
    pub fn unfit(&self) -> bool {
        let many = self.words.len() > WORDS_MOST || self.count > COUNT_MOST;
        many || self.words.iter().any(|&(slot, _)| slot > 3) || self.place > 64
    }

    /// How many words are saved on a slot.
    pub fn saved(&self, slot: u32) -> u32 {
        self.words.iter().filter(|&&(s, _)| s == slot).count() as u32
    }

    /// "Arrive: 21 slot over 3, 22 forty-eight saved."
    pub fn arrive(&mut self, slot: u32, word: u32) -> u32 {
        if self.unfit() {
            return 20;
        }
        if slot > 3 {
            return 21;
        }
        if self.words.len() == WORDS_MOST {
            return 22;
        }
        self.words.push((slot, word));
        0
    }

    /// "Count: 24 at 16."
    pub fn count(&mut self) -> u32 {
        if self.unfit() {
            return 20;
        }
        if self.count == COUNT_MOST {
            return 24;
        }
        self.count += 1;
        0
    }

    /// "Sync: 21 place over 64, 23 more taken on a slot than saved." It "replaces the state in the process's backup record, drops the
    /// oldest saved words slot by slot as taken, and zeroes the count". W-202: it shall "also return, for each slot, how many words were
    /// dropped and how many remain, all 0 when refused".
    pub fn sync(&mut self, place: u32, registers: [u32; 4], taken: [u32; 4]) -> (u32, [u32; 4], [u32; 4]) {
        if self.unfit() {
            return (20, [0; 4], [0; 4]);
        }
        if place > 64 {
            return (21, [0; 4], [0; 4]);
        }
        if (0..4).any(|slot| taken[slot] > self.saved(slot as u32)) {
            return (23, [0; 4], [0; 4]);
        }
        let before = [0, 1, 2, 3].map(|slot| self.saved(slot));
        for (slot, times) in taken.into_iter().enumerate() {
            for _ in 0..times {
                let oldest = self.words.iter().position(|&(s, _)| s == slot as u32).unwrap();
                self.words.remove(oldest);
            }
        }
        self.count = 0;
        self.place = place;
        self.registers = registers;
        let remain = [0, 1, 2, 3].map(|slot| self.saved(slot));
        let dropped = [0, 1, 2, 3].map(|slot| before[slot] - remain[slot]);
        (0, dropped, remain)
    }

    /// "Take over: only 20; it returns words, place, registers, count, and when refused no words and the rest 0."
    pub fn take_over(&self) -> (u32, Record) {
        if self.unfit() {
            return (20, Record::new());
        }
        (0, self.clone())
    }
}
