//! Records that are not the file's: those of the back key, and those of a line of a schedule that was typed.
use super::{Stays, Stepper};
use crate::expect::unmet;
use crate::form::assemble::Step;
use crate::form::syntax::At;
use crate::settle::{unfold, Stuck};
use crate::told;
use crate::words::Spoken;
use kunzeastylus::{Fate, Record};

/// From where a record came: of the file by its number, from 1; typed, by how many were; or a key that goes back.
#[derive(Clone, Copy, Debug, PartialEq, Eq)]
pub(super) enum Source {
    File(usize),
    Typed(usize),
    Back,
}

impl Source {
    /// What the record is called.
    pub fn name(self) -> String {
        match self {
            Source::File(number) => number.to_string(),
            Source::Typed(number) => format!("t{number}"),
            Source::Back => "b".to_string(),
        }
    }
}

#[derive(Clone, Copy, Debug)]
pub(super) struct Given {
    pub record: Record,
    pub source: Source,
}

impl Stepper {
    /// Gives records that are not the file's. Where one takes back a record of the file, that one is the next again.
    pub(super) fn give(&mut self, records: &[Record], source: impl Fn(usize) -> Source) -> Result<(), Stays> {
        self.room(records.len())?;
        let before = self.given.len();
        self.given.extend(records.iter().enumerate().map(|(i, record)| Given { record: *record, source: source(i) }));
        for fate in &self.ran().fates[before..] {
            if let Fate::TookBack(taken) = fate {
                if let Source::File(number) = self.given[*taken].source {
                    self.at = number - 1;
                }
            }
        }
        Ok(())
    }

    /// A line of a schedule behind what was given, made into records as those of a file are; and what is to be said of it.
    pub(super) fn type_in(&mut self, step: &Step) -> Result<Vec<String>, Stays> {
        let before = self.given.len();
        let done = Step::Records { records: self.done(), expected: None };
        let made = unfold(&self.bytes, &[At { line: 1, it: done }, At { line: 1, it: step.clone() }]);
        let stuck: Vec<String> = made.stuck.iter().map(|at| self.stuck(&at.it)).collect();
        let typed = self.typed;
        self.give(&made.records[before..], |i| Source::Typed(typed + 1 + i))?;
        self.typed += made.records.len() - before;
        let unmet = unmet(&self.bytes, Spoken::by(&self.names), &made.records, &self.ran(), &made.checks);
        let met = (!made.checks.is_empty() && unmet.is_empty()).then(|| "as expected".to_string());
        Ok(stuck.into_iter().chain(met).chain(unmet.into_iter().map(|unmet| unmet.what)).collect())
    }

    /// Why an `until` or a `settle` did not get where it should.
    fn stuck(&self, stuck: &Stuck) -> String {
        match stuck {
            Stuck::Refused { answer, .. } => format!("no further: the next would be {}", self.said().answer(*answer)),
            Stuck::Endless { records } => format!("no further: not there after {records} records"),
            Stuck::Unquiet { records, still, .. } => told::unquiet(*records, *still),
        }
    }
}
