//! What there is to see of a run so far, as data: all of it is what the proved calls wrote. How it is drawn is `draw`'s.
use crate::follow::Spot;
use kunzeastylus::{Answer, BusWord, Operation, Record, View};

/// The last record given: what it is called; where it is a step, the instruction that it found and where the process stood; its answer; what
/// the record is called that it took back; and, in the words of `ks explain`, what it did besides or what would help where it was refused.
#[derive(Clone, Debug, PartialEq, Eq)]
pub struct Last {
    pub name: String,
    pub record: Record,
    pub found: Option<(Operation, Spot)>,
    pub answer: Answer,
    pub taken: Option<String>,
    pub besides: Vec<String>,
}

/// What there is to see.
#[derive(Clone, Debug, PartialEq, Eq)]
pub struct Shown {
    pub last: Option<Last>,
    pub cabinet: Box<View>,
    /// What a step of each process would answer now; none where a run has no room for one record more.
    pub would: Vec<Option<Answer>>,
    /// The words on the bus that stand.
    pub bus: Vec<BusWord>,
    pub quiet: bool,
    /// The record of the file that comes next, with its number and the instruction that it will find.
    pub coming: Option<(usize, Record, Option<Operation>)>,
}
