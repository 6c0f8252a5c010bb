//! The records that are run: those of a file, the crashes, returns and resyncs that are put between them, and those that settle the cabinet.
use crate::form::assemble::Step;
use crate::form::syntax::At;
use crate::settle::{unfold, Stuck};
use crate::words::Spoken;
use kunzeastylus::{Move, Record};

/// A crash, a return or a resync that is put before record `before` of a schedule, from 1.
#[derive(Clone, Copy, Debug, PartialEq, Eq)]
pub struct Put {
    pub kind: Move,
    pub a: u8,
    pub before: usize,
}

impl Put {
    /// What it is called.
    pub fn name(self) -> &'static str {
        match self.kind {
            Move::Crash => "pull",
            _ => "put",
        }
    }

    /// As it was asked for.
    pub fn option(self, spoken: Spoken) -> String {
        let (option, of) = match self.kind {
            Move::Return => ("return", self.a.to_string()),
            Move::Resync => ("resync", spoken.typed(self.a)),
            _ => ("pull", self.a.to_string()),
        };
        format!("--{option} {of}@{}", self.before)
    }
}

/// From where a record came.
#[derive(Clone, Copy, Debug, PartialEq, Eq)]
pub enum Source {
    /// Of the schedule as it was given, by its number, from 1.
    Schedule(usize),
    Put(Put),
    /// Made to settle the cabinet: how many of these there are with it, and behind how many records of the schedule.
    Settled {
        number: usize,
        behind: usize,
    },
}

impl Source {
    /// What the record is called.
    pub fn name(self) -> String {
        match self {
            Source::Schedule(number) => number.to_string(),
            Source::Put(put) => put.name().to_string(),
            Source::Settled { number, .. } => format!("s{number}"),
        }
    }

    /// Which lines it stands with: what is put in, with those of the record that it is put before.
    pub fn with(self) -> usize {
        match self {
            Source::Schedule(number) => number,
            Source::Put(put) => put.before,
            Source::Settled { number, behind } => behind + number,
        }
    }
}

/// Records, and from where each came.
#[derive(Clone, Debug, Default, PartialEq, Eq)]
pub struct Given {
    pub records: Vec<Record>,
    pub sources: Vec<Source>,
}

impl Given {
    /// A schedule with what is put into it; what is put before one record, in the order given.
    pub fn of(records: &[Record], puts: &[Put]) -> Given {
        let mut given = Given::default();
        for number in 1..=records.len() + 1 {
            for put in puts.iter().filter(|put| put.before == number) {
                given.push(Record::new(put.kind, put.a, 0), Source::Put(*put));
            }
            if let Some(record) = records.get(number - 1) {
                given.push(*record, Source::Schedule(number));
            }
        }
        given
    }

    fn push(&mut self, record: Record, source: Source) {
        self.records.push(record);
        self.sources.push(source);
    }

    /// Goes on until quiet, on an accepted table, or says why it isn't then.
    pub fn settle(&mut self, table: &[u8]) -> Option<Stuck> {
        let behind = self.sources.iter().filter(|source| matches!(source, Source::Schedule(_))).count();
        let before = self.records.len();
        let plan = [Step::Records { records: self.records.clone(), expected: None }, Step::Settle { within: None }];
        let unfolded = unfold(table, &plan.map(|it| At { line: 0, it }));
        for (record, number) in unfolded.records[before..].iter().zip(1..) {
            self.push(*record, Source::Settled { number, behind });
        }
        unfolded.stuck.into_iter().next().map(|at| at.it)
    }
}
