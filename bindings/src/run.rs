//! The run of a schedule on a table, and the judging of its input.
use crate::answer::{word, Answer, BusWord};
use crate::buffers::{Buffers, Lengths};
use crate::calls;
use crate::fate::{fates, Fate};
use crate::record::records;
use crate::refusal::Refusal;

/// An accepted run: what it wrote, beside the schedule. `Run` alone owns both ([`Cabinet::run`](crate::Cabinet::run)); `Run<&[u8]>` reads them
/// where they were lent ([`run`]).
#[derive(Clone, Copy, Debug, PartialEq, Eq)]
pub struct Run<B = Vec<u8>> {
    /// Whether it ended quiet.
    pub quiet: bool,
    schedule: B,
    written: Buffers<B>,
}

/// What the report says of a process.
#[derive(Clone, Copy, Debug, PartialEq, Eq, Hash)]
pub struct ProcessEnd {
    pub board: u8,
    pub place: u8,
    pub unread: u8,
    pub hold_back: u8,
    pub registers: [u32; 4],
}

impl<B: AsRef<[u8]>> Run<B> {
    /// What a call returned, number + 256 quiet + 2^32 records, and wrote, for this schedule.
    pub(crate) fn of(result: u64, schedule: B, written: Buffers<B>) -> Result<Run<B>, Refusal> {
        Refusal::or(result, || Run { quiet: result >> 8 & 1 == 1, schedule, written })
    }

    pub fn records(&self) -> usize {
        self.written.reasons.as_ref().len()
    }

    /// An answer for each record, in order, also for those taken back.
    pub fn answers(&self) -> impl ExactSizeIterator<Item = Answer> + '_ {
        let Buffers { answers, reasons, origins, .. } = self.written.borrow();
        let told = reasons.iter().zip(origins.chunks_exact(2));
        answers.chunks_exact(6).zip(told).map(|(bytes, (&reason, origin))| Answer::of(bytes, reason, origin))
    }

    /// What became of each record, in order: whether it stands in the end, or was taken back, or took back another.
    pub fn fates(&self) -> Vec<Fate> {
        fates(records(self.schedule.as_ref()).zip(self.answers()))
    }

    /// The records that stand, by their places in the schedule, from 0, each with its answer: all but the move 8s and what those took back.
    pub fn standing(&self) -> impl Iterator<Item = (usize, Answer)> + '_ {
        let run = self.answers().enumerate().zip(self.fates());
        run.filter(|(_, fate)| *fate == Fate::Stands).map(|(answer, _)| answer)
    }

    /// The bus order: each word that was on the bus, with its channel, its sender and the place of its SEND. Words of records taken back don't
    /// count.
    pub fn bus(&self) -> impl Iterator<Item = BusWord> + '_ {
        self.standing().filter_map(|(_, answer)| answer.bus)
    }

    /// What became of each process, in order.
    pub fn processes(&self) -> impl ExactSizeIterator<Item = ProcessEnd> + '_ {
        self.written.report.as_ref().chunks_exact(20).map(|bytes| ProcessEnd {
            board: bytes[0],
            place: bytes[1],
            unread: bytes[2],
            hold_back: bytes[3],
            registers: [4, 8, 12, 16].map(|at| word(&bytes[at..])),
        })
    }
}

/// Runs a schedule on a table, in lent buffers ([`Buffers::for_run`] makes them): bytes beyond what the run writes are untouched, and a refused
/// run touches none. [`Cabinet::run`](crate::Cabinet::run) makes its own.
pub fn run<'b, B: AsMut<[u8]>>(table: &[u8], schedule: &'b [u8], buffers: &'b mut Buffers<B>) -> Result<Run<&'b [u8]>, Refusal> {
    let result = calls::ks_run(table, schedule, buffers.lend());
    Run::of(result, schedule, buffers.written(result, || table[4]))
}

/// Whether a run of these with buffers of these lengths would be accepted. Nothing is run.
pub fn judge(table: &[u8], schedule: &[u8], lengths: Lengths) -> Result<(), Refusal> {
    Refusal::or(calls::ks_judge(table, schedule, lengths).into(), || ())
}
