//! A whole run, from bytes to bytes: document 01, the end of "What each move replies".
use super::lent::Lent;
use super::reader::{judge_run, record};
use super::session::Session;

/// "An accepted run returns 0, its number of records, and whether it ended quiet. A refused one [..] returns the number alone, no
/// records, not quiet".
#[derive(Clone, Copy, Debug, PartialEq, Eq)]
pub struct Outcome {
    pub number: u8,
    pub records: usize,
    pub quiet: bool,
}

/// A run on lent buffers: a refused one "writes to no lent buffer", and an accepted one to no byte beyond its answers, its reasons, its report
/// and its origins.
pub fn run_into(table: &[u8], schedule: &[u8], lent: Lent<&mut [u8]>) -> Outcome {
    let (table, records) = match judge_run(table, schedule, lent.each().map(|buffer| buffer.len())) {
        Ok(judged) => judged,
        Err(number) => return Outcome { number, records: 0, quiet: false },
    };
    let mut session = Session::of(&table, records.chunks_exact(6).map(|bytes| bytes[0]));
    let told = lent.reasons.iter_mut().zip(lent.origins.chunks_exact_mut(2));
    for ((bytes, answer), (reason, origin)) in records.chunks_exact(6).zip(lent.answers.chunks_exact_mut(6)).zip(told) {
        let given = session.answer(record(bytes));
        answer.copy_from_slice(&given.bytes());
        *reason = given.reason();
        // W-212: "two bytes a record: sender and place"
        origin.copy_from_slice(&[given.origin.sender, given.origin.place]);
    }
    session.cabinet.report(lent.report);
    Outcome { number: 0, records: records.len() / 6, quiet: session.cabinet.quiet() }
}

/// A run, and what it wrote.
#[derive(Clone, Debug, PartialEq, Eq)]
pub struct Run {
    pub outcome: Outcome,
    pub lent: Lent<Vec<u8>>,
}

/// A run on buffers of these lengths, all 0 before.
pub fn run(table: &[u8], schedule: &[u8], buffers: Lent<usize>) -> Run {
    let mut lent = buffers.filled(0);
    let outcome = run_into(table, schedule, lent.lend());
    Run { outcome, lent }
}

impl Outcome {
    /// What the proved calls return for it: its number, 256 times quiet, and 2^32 times its records.
    pub fn returned(self) -> u64 {
        self.number as u64 + 256 * self.quiet as u64 + ((self.records as u64) << 32)
    }

    /// How many bytes such a run on so many processes writes to each buffer: a refused one, none.
    pub fn written(self, processes: usize) -> Lent<usize> {
        match self.number {
            0 => Lent::needed(self.records, processes),
            _ => Lent::all(0),
        }
    }
}
