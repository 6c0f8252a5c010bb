//! What a plan of a schedule comes to: `until` and `settle` are made into records, by proved runs of what stands before them.
//!
//! `settle` goes in rounds. A round has, in this order: a sync of each program whose last step was refused with 37; a step of each program,
//! by its number; a carry of each board, by its number. What is refused is left out, which changes nothing: a refused record leaves the
//! cabinet as it is. The first round in which all is refused is the end. Then the cabinet is quiet, or it stands still.
use crate::expect::Check;
use crate::form::answers::Outcome;
use crate::form::assemble::{Step, Want};
use crate::form::syntax::At;
use crate::proved::{answers_from, run_records};
use crate::records::RECORDS_MOST;
use kunzeastylus::{Answer, Code, Record};

/// How many records `settle` makes at most where nothing else is said.
pub const SETTLE_MOST: usize = 2_000;

/// How many rounds, or records, are tried at first in one run, and at most.
const TRIED: usize = 8;
const TRIED_MOST: usize = 256;

/// Why `until` or `settle` did not get where it should.
#[derive(Clone, Debug, PartialEq, Eq)]
pub enum Stuck {
    /// Another refusal came first, of the record with this number.
    Refused { record: usize, answer: Answer },
    /// So many records, and not there yet.
    Endless { records: usize },
    /// Not quiet after so many records: whether nothing can be done, and of each program its place and what a step would answer.
    Unquiet { records: usize, still: bool, programs: Vec<(u8, Answer)> },
}

/// The records of a schedule, with the line of each, what is to be looked at, and what did not get where it should.
#[derive(Clone, Debug, Default, PartialEq, Eq)]
pub struct Unfolded {
    pub records: Vec<Record>,
    pub lines: Vec<usize>,
    pub checks: Vec<Check>,
    pub stuck: Vec<At<Stuck>>,
}

/// Makes records of a plan, on an accepted table.
pub fn unfold(table: &[u8], plan: &[At<Step>]) -> Unfolded {
    let mut made = Unfolded::default();
    for At { line, it } in plan {
        let line = *line;
        match it {
            Step::Records { records, expected } => {
                let first = made.records.len();
                made.add(line, records);
                if let Some(expected) = *expected {
                    let each = first..made.records.len();
                    made.checks.extend(each.map(|record| Check::Answer { line, record, expected }));
                }
            }
            Step::Until { record, outcome } => made.until(table, line, *record, *outcome),
            Step::Settle { within } => made.settle(table, line, within.map_or(SETTLE_MOST, |within| within as usize)),
            Step::Expect(want) => made.expect(line, want),
        }
    }
    made
}

impl Unfolded {
    fn add(&mut self, line: usize, records: &[Record]) {
        self.records.extend(records);
        self.lines.resize(self.records.len(), line);
    }

    fn expect(&mut self, line: usize, want: &Want) {
        self.checks.push(Check::Cabinet { line, after: self.records.len(), want: want.clone() });
    }

    fn room(&self) -> usize {
        RECORDS_MOST.saturating_sub(self.records.len())
    }

    /// The answers to some records behind those that there are; none where that is no run, which is said later.
    fn tried(&self, table: &[u8], more: &[Record]) -> Vec<Answer> {
        answers_from(table, &[&self.records, more].concat(), self.records.len())
    }

    /// The same record again and again until its answer is this; where that is a refusal, the refused record is left out.
    fn until(&mut self, table: &[u8], line: usize, record: Record, outcome: Outcome) {
        let mut many = TRIED;
        loop {
            let tried = self.tried(table, &vec![record; many.min(self.room())]);
            if tried.is_empty() {
                self.stuck.push(At { line, it: Stuck::Endless { records: self.records.len() } });
                return;
            }
            let found = tried.iter().position(|answer| outcome.is(*answer) || answer.code.refused());
            let Some(at) = found else {
                self.add(line, &vec![record; tried.len()]);
                many = (2 * many).min(TRIED_MOST);
                continue;
            };
            let there = outcome.is(tried[at]);
            self.add(line, &vec![record; at + usize::from(there && !outcome.refuses())]);
            if !there {
                self.stuck.push(At { line, it: Stuck::Refused { record: self.records.len() + 1, answer: tried[at] } });
            }
            return;
        }
    }

    /// Rounds until all of one is refused, by so many records at most.
    fn settle(&mut self, table: &[u8], line: usize, most: usize) {
        let begun = self.records.len();
        let end = (begun + most).min(RECORDS_MOST);
        let mut rounds = TRIED;
        let mut owed = Vec::new();
        loop {
            let batch = self.batch(table, &owed, rounds);
            if batch.is_empty() {
                break;
            }
            let answers = self.tried(table, &batch.concat());
            let outcome = chosen(&batch, &answers, !owed.is_empty());
            let room = end - self.records.len();
            self.add(line, &outcome.done[..outcome.done.len().min(room)]);
            if outcome.ended || self.records.len() == end {
                break;
            }
            rounds = if outcome.owed.is_empty() { (2 * rounds).min(TRIED_MOST) } else { TRIED };
            owed = outcome.owed;
        }
        let records = self.records.len() - begun;
        if let Some(ran) = run_records(table, &self.records).ok().filter(|ran| !ran.quiet) {
            let (still, steps) = self.probed(table);
            let programs = ran.ends.iter().map(|end| end.place).zip(steps).collect();
            self.stuck.push(At { line, it: Stuck::Unquiet { records, still, programs } });
        }
    }

    /// So many rounds as there is room for in a run, the first with the syncs that are owed.
    fn batch(&self, table: &[u8], owed: &[u8], rounds: usize) -> Vec<Vec<Record>> {
        let round: Vec<Record> = steps(table).chain(carries(table)).collect();
        let syncs: Vec<Record> = owed.iter().map(|p| Record::sync(*p)).collect();
        let many = self.room().saturating_sub(syncs.len()) / round.len();
        let mut batch = vec![round; rounds.min(many)];
        if let Some(first) = batch.first_mut() {
            first.splice(0..0, syncs);
        }
        batch
    }

    /// What a step of each program would answer now, and whether all of these and a carry of each board would be refused.
    fn probed(&self, table: &[u8]) -> (bool, Vec<Answer>) {
        let one = |record: Record| self.tried(table, &[record]).first().copied();
        let steps: Vec<Answer> = steps(table).filter_map(one).collect();
        let carried = carries(table).filter_map(one).any(|answer| !answer.code.refused());
        (!carried && steps.iter().all(|answer| answer.code.refused()), steps)
    }
}

fn steps(table: &[u8]) -> impl Iterator<Item = Record> + '_ {
    (0..table[4]).map(Record::step)
}

fn carries(table: &[u8]) -> impl Iterator<Item = Record> + '_ {
    (0..table[3]).map(Record::carry)
}

/// What is kept of a batch.
struct Chosen {
    done: Vec<Record>,
    /// The programs that owe a sync, by their numbers.
    owed: Vec<u8>,
    ended: bool,
}

/// What was done in the rounds of a batch, up to the first in which somebody owes a sync or in which all is refused; `synced` says that the
/// first round began with the syncs that were owed.
fn chosen(batch: &[Vec<Record>], answers: &[Answer], synced: bool) -> Chosen {
    let mut chosen = Chosen { done: Vec::new(), owed: Vec::new(), ended: answers.is_empty() };
    let mut answers = answers.iter();
    for (i, round) in batch.iter().enumerate() {
        let before = chosen.done.len();
        for (record, answer) in round.iter().zip(answers.by_ref()) {
            match answer.code {
                Code::OwesSync => chosen.owed.push(record.a),
                code if !code.refused() => chosen.done.push(*record),
                _ => (),
            }
        }
        let nothing = chosen.done.len() == before;
        chosen.ended = nothing && (chosen.owed.is_empty() || synced && i == 0);
        if chosen.ended || !chosen.owed.is_empty() {
            break;
        }
    }
    chosen
}
