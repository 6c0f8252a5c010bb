//! A run record by record, forward and back: a table, the records of a file, and the list of those given so far, which is run anew by the proved
//! calls whenever something of it is to be shown.
//!
//! Going back is a move 8 at the end of that list. The record of the file that it takes back is then the next one again: the cabinet is as it
//! was before it. What was pushed out of the 64 records that are kept stays out, also where a file's own move 8s would reach further; going to
//! a record that is behind begins from the start.
pub mod command;
mod draw;
mod given;
mod save;
mod say;
mod session;
mod sheet;
mod shown;

use crate::explain::{self, Explaining, Input};
use crate::follow::Spot;
use crate::form::names::Names;
use crate::played::Played;
use crate::proved::{self, answers_from, run_records, Ran};
use crate::records::RECORDS_MOST;
use crate::words::Spoken;
use command::{Command, Where};
pub use draw::{bus_so_far, in_lines, on_screen};
use given::{Given, Source};
use kunzeastylus::{Fate, Move, Operation, ProcessView, Record, Refusal, Table, View};
pub use session::{help, session, Front};
pub use sheet::Sheet;
pub use shown::{Last, Shown};

/// What a command did: how many records it gave, whether from the start, and what else is to be said.
#[derive(Clone, Debug, PartialEq, Eq)]
pub struct Went {
    pub records: usize,
    pub anew: bool,
    pub notes: Vec<String>,
}

/// Why nothing was done.
#[derive(Clone, Debug, PartialEq, Eq)]
pub struct Stays(pub String);

/// A file's schedule on its table, and how far it is.
pub struct Stepper {
    bytes: Vec<u8>,
    table: Table,
    names: Names,
    file: Vec<Record>,
    /// How many of the file's records are behind.
    at: usize,
    given: Vec<Given>,
    typed: usize,
}

impl Stepper {
    /// At the start, with nothing given.
    pub fn new(input: Input, names: Names) -> Result<Stepper, Refusal> {
        input.records()?;
        let table = Table::of(&input.table).expect("the table of an accepted run");
        let file = Record::read(&input.schedule).expect("the schedule of an accepted run");
        Ok(Stepper { bytes: input.table, table, names, file, at: 0, given: Vec::new(), typed: 0 })
    }

    pub fn table(&self) -> &Table {
        &self.table
    }

    pub fn names(&self) -> &Names {
        &self.names
    }

    /// How many records the file has.
    pub fn records(&self) -> usize {
        self.file.len()
    }

    /// The records given so far.
    fn done(&self) -> Vec<Record> {
        self.given.iter().map(|given| given.record).collect()
    }

    /// The run of those.
    fn ran(&self) -> Ran {
        run_records(&self.bytes, &self.done()).expect("a run of records on an accepted table")
    }

    /// The whole cabinet behind these records.
    fn cabinet(&self, records: &[Record]) -> Box<View> {
        proved::view(&self.bytes, records).expect("a view of records on an accepted table")
    }

    /// What there is to see now.
    pub fn shown(&self) -> Shown {
        let (done, ran) = (self.done(), self.ran());
        let cabinet = self.cabinet(&done);
        let coming = self.file.get(self.at).map(|&record| (self.at + 1, record, self.found(record, &cabinet)));
        let would = (0..self.table.processes.len()).map(|p| self.would(&done, Record::step(p as u8))).collect();
        Shown { last: self.last(&done, &ran), cabinet, would, bus: ran.bus, quiet: ran.quiet, coming }
    }

    /// What a record would answer behind those that were given.
    fn would(&self, done: &[Record], record: Record) -> Option<kunzeastylus::Answer> {
        answers_from(&self.bytes, &[done, &[record]].concat(), done.len()).first().copied()
    }

    /// The instruction that a step finds in a cabinet; none where the process has halted, and of other records.
    fn found(&self, record: Record, cabinet: &View) -> Option<Operation> {
        let step = record.kind() == Some(Move::Step);
        let place = cabinet.processes().get(usize::from(record.a)).filter(|_| step)?.place;
        self.table.processes[usize::from(record.a)].program.get(place as usize).copied()
    }

    /// The last of the records given, and its answer in the run of all of them.
    fn last(&self, done: &[Record], ran: &Ran) -> Option<Last> {
        let (&Given { record, source }, _) = self.given.split_last()?;
        let last = done.len() - 1;
        let before = self.cabinet(&done[..last]);
        let spot = |process: &ProcessView| Spot {
            board: process.board as u8,
            place: process.place as usize,
            registers: process.registers,
        };
        let spot = before.processes().get(usize::from(record.a)).map(spot);
        let found = self.found(record, &before).zip(spot);
        let taken = match ran.fates[last] {
            Fate::TookBack(taken) => Some(self.given[taken].source.name()),
            _ => None,
        };
        Some(Last {
            name: source.name(),
            record,
            found,
            answer: ran.answers[last],
            taken,
            besides: self.besides(done, ran, spot),
        })
    }

    /// What the last of these records did besides its answer, or what would help where it was refused.
    fn besides(&self, done: &[Record], ran: &Ran, spot: Option<Spot>) -> Vec<String> {
        let bytes = Input { table: self.bytes.clone(), schedule: Record::schedule(done) };
        let played = Played { bytes, table: self.table.clone(), records: done.to_vec(), ran: ran.clone() };
        let given = explain::Given::of(done, &[]);
        Explaining::of_last(&played, &given, Spoken::by(&self.names), spot).beneath(done.len() - 1)
    }

    /// Does what a command asks for.
    pub fn obey(&mut self, command: &Command) -> Result<Went, Stays> {
        let before = self.given.len();
        let mut notes = Vec::new();
        match command {
            Command::Next => self.on(self.at + 1)?,
            Command::Back => self.give(&[Record::back()], |_| Source::Back)?,
            Command::Go(to) if *to < self.at => {
                (self.at, self.typed) = (0, 0);
                self.given.clear();
                self.on(*to)?;
                return Ok(Went { records: *to, anew: true, notes });
            }
            Command::Go(to) => self.on(*to)?,
            Command::Run(Where::End) if self.at == self.file.len() => self.on(self.at + 1)?,
            Command::Run(Where::End) => self.on(self.file.len())?,
            Command::Run(to) => self.on_to(*to)?,
            Command::Give(step) => notes = self.type_in(step)?,
        }
        Ok(Went { records: self.given.len() - before, anew: false, notes })
    }

    /// Whether so many records more make a run.
    fn room(&self, more: usize) -> Result<(), Stays> {
        match self.given.len() + more <= RECORDS_MOST {
            true => Ok(()),
            false => {
                let most = format!("a run has at most {RECORDS_MOST} records, with those taken back");
                Err(Stays(format!("{most}; `go N` to a record that is behind begins from the start")))
            }
        }
    }

    /// On until so many of the file's records are behind.
    fn on(&mut self, to: usize) -> Result<(), Stays> {
        if to > self.file.len() {
            let records = self.file.len();
            return Err(Stays(format!("the file has no record {to}: it ends with record {records}")));
        }
        self.room(to - self.at)?;
        let records = (self.at + 1..=to).map(|number| Given { record: self.file[number - 1], source: Source::File(number) });
        self.given.extend(records);
        self.at = to;
        Ok(())
    }

    /// On to the file's next record of some kind: all that are ahead are run to find it.
    fn on_to(&mut self, to: Where) -> Result<(), Stays> {
        let ahead: Vec<Record> = self.file[self.at..].iter().take(RECORDS_MOST - self.given.len()).copied().collect();
        let answers = answers_from(&self.bytes, &[self.done(), ahead.clone()].concat(), self.given.len());
        let found = ahead.iter().zip(answers).position(|(record, answer)| to.is(*record, answer));
        self.on(self.at + 1 + found.ok_or_else(|| Stays(format!("no {} is ahead", to.called(&self.names))))?)
    }
}
