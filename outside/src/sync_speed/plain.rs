//! The backup record's sync once more in Rust, with a growing list and nothing proved: what the proved one's time is held against. It does
//! the same job: 21 and 23, what was dropped and what remains slot by slot, and how many words of each slot are saved is kept.

#[derive(Clone, Copy)]
pub struct Saved {
    pub word: u32,
    pub slot: u8,
}

/// A process when its sync was issued.
pub struct Checkpoint {
    pub place: u32,
    pub registers: [u32; 4],
    pub taken: [u32; 4],
}

pub struct Report {
    pub dropped: [u32; 4],
    pub remaining: [u32; 4],
}

#[derive(Default)]
pub struct Record {
    pub saved: Vec<Saved>,
    /// How many of them are on each slot.
    pub on: [u32; 4],
    pub registers: [u32; 4],
    pub place: u32,
    pub count: u32,
}

impl Record {
    /// In its one caller, as the proved one stands in the exported call.
    #[inline(always)]
    pub fn sync(&mut self, checkpoint: &Checkpoint) -> Result<Report, u8> {
        if checkpoint.place > 64 {
            return Err(21);
        }
        if self.on.iter().zip(&checkpoint.taken).any(|(on, taken)| on < taken) {
            return Err(23);
        }
        // Only as far as the last word to be dropped; what stays before it moves up to it.
        let mut left = checkpoint.taken;
        let mut due: u32 = left.iter().sum();
        let (mut at, mut kept) = (0, 0);
        while due > 0 {
            let saved = self.saved[at];
            let left = &mut left[saved.slot as usize];
            if *left > 0 {
                *left -= 1;
                due -= 1;
            } else {
                self.saved[kept] = saved;
                kept += 1;
            }
            at += 1;
        }
        self.saved.drain(kept..at);
        let remaining = [0, 1, 2, 3].map(|slot| self.on[slot] - checkpoint.taken[slot]);
        self.on = remaining;
        self.registers = checkpoint.registers;
        self.place = checkpoint.place;
        self.count = 0;
        Ok(Report { dropped: checkpoint.taken, remaining })
    }
}
