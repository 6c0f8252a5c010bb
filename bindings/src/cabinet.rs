//! A cabinet by its table, on which runs size their own buffers.
use crate::buffers::{Buffers, Lengths};
use crate::calls;
use crate::label::label_table;
use crate::record::Record;
use crate::refusal::Refusal;
use crate::run::{judge, Run};
use crate::sweep::{sweep, Sweep};
use crate::table::Table;
use crate::view::{view, View};

/// A table that was accepted. It keeps nothing else: each run begins anew.
#[derive(Clone, Debug, PartialEq, Eq, Hash)]
pub struct Cabinet {
    table: Vec<u8>,
}

impl Cabinet {
    /// By a table's bytes.
    pub fn new(table: impl Into<Vec<u8>>) -> Result<Cabinet, Refusal> {
        let table = table.into();
        judge(&table, &Record::schedule(&[]), Lengths::ENOUGH).map(|()| Cabinet { table })
    }

    /// The label line's, from a first serial on.
    pub fn label_line(first: u32) -> Result<Cabinet, Refusal> {
        label_table(first).map(|table| Cabinet { table: table.to_vec() })
    }

    /// The table's bytes.
    pub fn bytes(&self) -> &[u8] {
        &self.table
    }

    /// What the table says.
    pub fn table(&self) -> Table {
        Table::of(&self.table).expect("the table was accepted")
    }

    /// Runs a schedule. It is refused with 9 or 10 alone.
    pub fn run(&self, schedule: &[u8]) -> Result<Run, Refusal> {
        let mut buffers = Buffers::for_run(&self.table, schedule);
        let result = calls::ks_run(&self.table, schedule, buffers.lend());
        Run::of(result, schedule.to_vec(), buffers)
    }

    /// Every place to pull a board. It is refused with 9, 10 or 52 alone.
    pub fn sweep(&self, schedule: &[u8]) -> Result<Sweep, Refusal> {
        sweep(&self.table, schedule)
    }

    /// The whole cabinet as it is after a schedule. It is refused with 9 or 10 alone.
    pub fn view(&self, schedule: &[u8]) -> Result<Box<View>, Refusal> {
        view(&self.table, schedule)
    }
}

impl TryFrom<&Table> for Cabinet {
    type Error = Refusal;

    fn try_from(table: &Table) -> Result<Cabinet, Refusal> {
        table.bytes().map(|table| Cabinet { table })
    }
}
