//! The proved library's exported calls of the backup record, and its two lent arrays as a record.
use crate::model::{Record, WORDS_MOST};
use kunzeastylus::calls;

/// How many numbers the saved words have, a head, and what a sync reports.
pub const SAVED: usize = WORDS_MOST;
pub const HEAD: usize = 7;
pub const REPORT: usize = 8;

/// What a board programmer lends: any numbers.
#[derive(Clone, Debug, PartialEq, Eq)]
pub struct Lent {
    pub saved: [u64; SAVED],
    pub head: [u32; HEAD],
}

/// A call with its arguments.
#[derive(Clone, Copy, Debug)]
pub enum Call {
    New,
    Arrive { slot: u32, word: u32 },
    Count,
    Sync { place: u32, registers: [u32; 4], taken: [u32; 4] },
    TakeOver,
}

/// Makes a call. A sync writes its report, a promotion the head that it hands over; the other calls have neither.
pub fn make(lent: &mut Lent, call: &Call, report: &mut [u32; REPORT], handed: &mut [u32; HEAD]) -> u32 {
    let Lent { saved, head } = lent;
    match call {
        Call::New => {
            calls::ks_backup_new(head);
            0
        }
        Call::Arrive { slot, word } => calls::ks_backup_arrive(saved, head, *slot, *word),
        Call::Count => calls::ks_backup_count(saved, head),
        Call::Sync { place, registers, taken } => calls::ks_backup_sync(saved, head, *place, registers, taken, report),
        Call::TakeOver => calls::ks_backup_take_over(saved, head, handed),
    }
}

/// The record that two arrays stand for: of the saved words as many as the head says, each slot times 2^32 plus word; then count, place and four
/// registers. A length that goes far past the end is cut short: the record is unfit by one word too many already.
pub fn view(saved: &[u64; SAVED], head: &[u32; HEAD]) -> Record {
    let [len, count, place, registers @ ..] = *head;
    let at = |i: usize| saved.get(i).copied().unwrap_or(0);
    let words = (0..len.min(1000) as usize).map(|i| ((at(i) >> 32) as u32, at(i) as u32)).collect();
    Record { words, count, place, registers }
}
