//! Where each process stands before each record of an accepted run, so that a step can be named by its instruction.
//!
//! Why it is right: a process's place and registers change with its own steps alone, by document 01's instructions, and what a step takes is in
//! its answer; with every other record but a crash and a back they stay, and so does its board. After a crash all are those of the report of
//! the run up to there; after a back, those before the record that it took back. At the end they must be those of the report. So a run costs one run more for each
//! crash, and what the stand-bys hold is nobody's business here.
use kunzeastylus::{Answer, Code, Move, Operation, ProcessEnd, Table};

/// A process's board, place and registers.
#[derive(Clone, Copy, Debug, Default, PartialEq, Eq)]
pub struct Spot {
    pub board: u8,
    pub place: usize,
    pub registers: [u32; 4],
}

impl From<ProcessEnd> for Spot {
    fn from(end: ProcessEnd) -> Spot {
        Spot { board: end.board, place: end.place.into(), registers: end.registers }
    }
}

impl Spot {
    /// The instruction is done, with this answer.
    pub fn step(&mut self, operation: Operation, answer: Answer) {
        let registers = &mut self.registers;
        self.place += 1;
        match operation {
            Operation::Set { register, word } => registers[register as usize] = word,
            Operation::Add { register, other } => {
                registers[register as usize] = registers[register as usize].wrapping_add(registers[other as usize]);
            }
            Operation::Take { register, .. } => registers[register as usize] = answer.word,
            Operation::First { register, .. } => {
                registers[register as usize] = answer.word;
                registers[register as usize + 1] = answer.a.into();
            }
            Operation::Send { .. } => (),
            Operation::Jump { register, place } if registers[register as usize] != 0 => self.place = place as usize,
            Operation::Jump { .. } => (),
        }
    }
}

/// The processes of a table, while a run is followed.
pub struct Followed<'t> {
    table: &'t Table,
    spots: Vec<Spot>,
    /// The same before each record that stands, in order.
    before: Vec<Vec<Spot>>,
}

impl<'t> Followed<'t> {
    /// Each process on its first board; all places and registers are 0 at first.
    pub fn new(table: &'t Table) -> Followed<'t> {
        let spots = table.processes.iter().map(|process| Spot { board: process.primary, ..Spot::default() });
        Followed { table, spots: spots.collect(), before: Vec::new() }
    }

    /// Where a process is, if there is such a process.
    pub fn spot(&self, process: u8) -> Option<Spot> {
        self.spots.get(usize::from(process)).copied()
    }

    /// The instruction that a process does next; none where it has halted, or where there is no such process.
    fn next(&self, process: u8) -> Option<Operation> {
        let spot = self.spot(process)?;
        self.table.processes[usize::from(process)].program.get(spot.place).copied()
    }

    /// One record, by its move and `a`, with its answer; `report` gives the report of the run up to and with this record.
    pub fn record(&mut self, kind: Option<Move>, a: u8, answer: Answer, report: impl FnOnce() -> Vec<Spot>) {
        if kind == Some(Move::Back) {
            if answer.code == Code::TakenBack {
                self.spots = self.before.pop().expect("a back that is done takes back a record");
            }
            return;
        }
        self.before.push(self.spots.clone());
        match kind {
            _ if answer.code.refused() => (),
            Some(Move::Step) => {
                let operation = self.next(a).expect("a step that is done has an instruction");
                self.spots[usize::from(a)].step(operation, answer);
            }
            Some(Move::Crash) => self.spots = report(),
            Some(Move::Sync | Move::Carry | Move::Feed | Move::Return | Move::Resync | Move::Back) | None => (),
        }
    }

    pub fn spots(&self) -> &[Spot] {
        &self.spots
    }
}
