//! A run with what it was given: the table, the records, and what the proved call wrote. The explanation, the plain run and the picture are made
//! of it; what asks only for what was written has that alone, a `Ran`.
use crate::explain::Input;
use crate::proved::{self, Ran};
use kunzeastylus::{Fate, Move, Record, Table};

/// An accepted run.
#[derive(Clone, Debug, PartialEq, Eq)]
pub struct Played {
    pub bytes: Input,
    pub table: Table,
    pub records: Vec<Record>,
    pub ran: Ran,
}

impl Played {
    /// The run of a table and a schedule, or the number by which it is refused.
    pub fn of(input: Input) -> Result<Played, u8> {
        let ran = proved::run(&input.table, &input.schedule)?;
        let table = Table::of(&input.table).expect("the table of an accepted run");
        let records = Record::read(&input.schedule).expect("the schedule of an accepted run");
        Ok(Played { bytes: input, table, records, ran })
    }

    /// The move of a record, if it is one.
    pub fn kind(&self, record: usize) -> Option<Move> {
        self.records[record].kind()
    }

    /// The records that stand, by their places in the schedule: all but the backs and what those took back.
    pub fn standing(&self) -> impl Iterator<Item = usize> + '_ {
        (0..self.records.len()).filter(|&i| self.ran.fates[i] == Fate::Stands)
    }
}
