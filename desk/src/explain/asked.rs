//! What is asked for: which records have a line, and whether they have lines at all.
use super::Explaining;
use crate::words::channels_of;
use kunzeastylus::{End, Fate, Move, Operation};

/// The lines of records `from` to `to` of the schedule, from 1, and of these only those about something.
#[derive(Clone, Copy, Debug, PartialEq, Eq)]
pub struct Asked {
    pub from: usize,
    pub to: usize,
    pub only: Option<Only>,
    /// A line for each of them, also for equal refusals in a row and however many there are.
    pub all: bool,
    /// No lines, but how many answers and words there are.
    pub summary: bool,
}

impl Default for Asked {
    fn default() -> Asked {
        Asked { from: 1, to: usize::MAX, only: None, all: false, summary: false }
    }
}

/// What a line is about.
#[derive(Clone, Copy, Debug, PartialEq, Eq)]
pub enum Only {
    Refused,
    Bus,
    Process(u8),
    Channel(u8),
    Board(u8),
}

impl Asked {
    /// Whether a part of the run is asked for.
    pub fn part(&self) -> bool {
        (self.from, self.to) != (1, usize::MAX) || self.only.is_some()
    }

    /// Whether a record has a line. A back has one where the record has that it took back.
    pub fn wants(&self, run: &Explaining, record: usize) -> bool {
        let with = run.given.sources[record].with();
        let about = match run.played.ran.fates[record] {
            Fate::TookBack(taken) => taken,
            _ => record,
        };
        (self.from..=self.to).contains(&with) && self.only.is_none_or(|only| only.is_about(run, about))
    }
}

impl Only {
    fn is_about(self, run: &Explaining, i: usize) -> bool {
        let (record, answer) = (run.played.records[i], run.played.ran.answers[i]);
        let kind = record.kind();
        match self {
            Only::Refused => answer.code.refused(),
            Only::Bus => answer.bus.is_some(),
            Only::Process(p) => match kind {
                Some(Move::Step | Move::Sync | Move::Resync) => record.a == p,
                Some(Move::Crash) if !answer.code.refused() => run.moved_or_bare(i, p),
                Some(Move::Carry) if answer.bus.is_none() => !answer.code.refused() && answer.a == p,
                _ => answer.bus.is_some_and(|word| {
                    word.sender == End::Process(p) || run.played.table.channels[usize::from(word.channel)].1 == End::Process(p)
                }),
            },
            Only::Channel(k) => match kind {
                Some(Move::Feed) => record.a == k,
                Some(Move::Step) => run.operation(i).is_some_and(|operation| names(operation, k)),
                _ => answer.bus.is_some_and(|word| word.channel == k),
            },
            Only::Board(b) => match kind {
                Some(Move::Carry | Move::Crash | Move::Return) => record.a == b,
                Some(Move::Step | Move::Sync | Move::Resync) => run.spots[i].is_some_and(|spot| spot.board == b),
                _ => false,
            },
        }
    }
}

/// Whether an instruction names a channel.
fn names(operation: Operation, k: u8) -> bool {
    match operation {
        Operation::Take { channel, .. } | Operation::Send { channel, .. } => channel == k,
        Operation::First { mask, .. } => channels_of(mask).any(|channel| channel == k),
        _ => false,
    }
}
