//! Which records of a run stand in the end, and which were taken back by which: document 02, W-214.
use crate::answer::{Answer, Code};
use crate::record::{Move, Record};

/// What became of a record. Others are named by their places in the schedule, from 0.
#[derive(Clone, Copy, Debug, PartialEq, Eq, Hash)]
pub enum Fate {
    /// It counts, refused or not: the cabinet and the bus order are those of the records that stand, and of no others.
    Stands,
    /// A later move 8 took it back: it is as if it had never been. The bytes written for it stay.
    TakenBackBy(usize),
    /// A move 8 that took back this record. It stands nowhere, and is never taken back.
    TookBack(usize),
    /// A move 8 that was refused. It stands nowhere either, though its answer looks like any other.
    TookNothing,
}

/// The fate of each record, by the records of a schedule and their answers.
pub(crate) fn fates(run: impl Iterator<Item = (Record, Answer)>) -> Vec<Fate> {
    let mut fates = Vec::new();
    let mut standing = Vec::new();
    for (i, (record, answer)) in run.enumerate() {
        let fate = match record.kind() {
            Some(Move::Back) if answer.code == Code::TakenBack => {
                let taken = standing.pop().expect("a move 8 that is done takes back a record");
                fates[taken] = Fate::TakenBackBy(i);
                Fate::TookBack(taken)
            }
            Some(Move::Back) => Fate::TookNothing,
            _ => {
                standing.push(i);
                Fate::Stands
            }
        };
        fates.push(fate);
    }
    fates
}
