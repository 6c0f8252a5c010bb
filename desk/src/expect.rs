//! Expectations, held against a run: of a record's answer, and of the cabinet as it is behind a record.
use crate::form::answers::{name, Outcome};
use crate::form::assemble::Want;
use crate::form::syntax::{Expected, Fact, Ref};
use crate::proved::{run_records, Ran};
use crate::words::{self, many, Spoken};
use kunzeastylus::{Answer, ProcessEnd, Reason, Record, Table};

/// Something that is expected, with its line.
#[derive(Clone, Debug, PartialEq, Eq)]
pub enum Check {
    /// Of the record with this place in the schedule, from 0.
    Answer { line: usize, record: usize, expected: Expected },
    /// Of the cabinet behind so many records.
    Cabinet { line: usize, after: usize, want: Want },
}

impl Check {
    pub fn line(&self) -> usize {
        match self {
            Check::Answer { line, .. } | Check::Cabinet { line, .. } => *line,
        }
    }
}

/// An expectation that failed: its line, and what was expected and found.
#[derive(Clone, Debug, PartialEq, Eq)]
pub struct Unmet {
    pub line: usize,
    pub what: String,
}

/// The expectations that fail, in their order. The run is that of all records.
pub fn unmet(table: &[u8], spoken: Spoken, records: &[Record], ran: &Ran, checks: &[Check]) -> Vec<Unmet> {
    let decoded = Table::of(table).expect("the table of an accepted run");
    let mut unmet = Vec::new();
    let mut beginning: Option<(usize, Ran)> = None;
    for check in checks {
        let what = match check {
            Check::Answer { record, expected, .. } => answer(spoken, *record, *expected, ran.answers[*record]),
            Check::Cabinet { after, want, .. } if *after == records.len() => cabinet(&decoded, spoken, ran, want),
            Check::Cabinet { after, want, .. } => {
                if beginning.as_ref().is_none_or(|(records, _)| records != after) {
                    let ran = run_records(table, &records[..*after]).expect("a beginning of an accepted run");
                    beginning = Some((*after, ran));
                }
                beginning.as_ref().and_then(|(_, ran)| cabinet(&decoded, spoken, ran, want))
            }
        };
        unmet.extend(what.map(|what| Unmet { line: check.line(), what }));
    }
    unmet
}

/// What an answer is, in words with its code.
fn told(spoken: Spoken, answer: Answer) -> String {
    match answer.code.refused() {
        true => spoken.answer(answer, None),
        false => format!("{}, {}", answer.code.number(), spoken.answer(answer, None)),
    }
}

fn answer(spoken: Spoken, record: usize, expected: Expected, found: Answer) -> Option<String> {
    let found_is = format!("record {} answered {}", record + 1, told(spoken, found));
    if !expected.outcome.is(found) {
        return Some(format!("expected {}; {found_is}", outcome(expected.outcome)));
    }
    if let Some(word) = expected.word.filter(|word| *word != found.word) {
        return Some(format!("expected {} {word}; {found_is}", outcome(expected.outcome)));
    }
    let why = expected.why.filter(|why| why.reason != found.reason)?;
    let told = |reason: Reason| format!("reason {}, {}", reason.number(), reason.words());
    Some(format!("expected {}; record {} has {}", told(why.reason), record + 1, told(found.reason)))
}

fn outcome(outcome: Outcome) -> String {
    match outcome {
        Outcome::Code(code) => format!("{} ({})", code.number(), name(code)),
        Outcome::Refused => "a refusal".to_string(),
    }
}

/// What of the cabinet is not as it is wanted.
fn cabinet(table: &Table, spoken: Spoken, ran: &Ran, want: &Want) -> Option<String> {
    match want {
        Want::Quiet(quiet) if ran.quiet == *quiet => None,
        Want::Quiet(true) => Some(format!("expected quiet; found {}", words::quiet(false))),
        Want::Quiet(false) => Some(format!("expected not quiet; found {}", words::quiet(true))),
        Want::Program(p, facts) => {
            let halt = table.processes[*p].program.len();
            let unmet = facts.iter().filter_map(|fact| program(spoken, *p, halt, ran.ends[*p], fact));
            let (wanted, found): (Vec<String>, Vec<String>) = unmet.unzip();
            let name = spoken.process(*p as u32);
            (!wanted.is_empty()).then(|| format!("expected {name} {}; found {}", wanted.join(", "), found.join(", ")))
        }
        Want::Channel(channel, wanted) => {
            let found: Vec<u32> = ran.bus.iter().filter(|word| word.channel == *channel).map(|word| word.word).collect();
            channel_words(&spoken.channel(*channel), wanted, &found)
        }
    }
}

/// What was wanted and what was found instead, if it was.
fn program(spoken: Spoken, p: usize, halt: usize, end: ProcessEnd, fact: &Fact) -> Option<(String, String)> {
    let place = |place: u32| match place as usize == halt {
        true => format!("halted at place {place}"),
        false => format!("at {}", spoken.place(p, place)),
    };
    let (met, wanted, found) = match fact {
        Fact::On(board) => (u32::from(end.board) == *board, format!("on {board}"), format!("on {}", end.board)),
        Fact::At(Ref::Number(at)) => (u32::from(end.place) == *at, place(*at), place(end.place.into())),
        Fact::At(Ref::Name(name)) => (false, format!("at {name}"), place(end.place.into())),
        Fact::Halted => (usize::from(end.place) == halt, "halted".to_string(), place(end.place.into())),
        Fact::Unread(unread) => (u32::from(end.unread) == *unread, format!("unread {unread}"), format!("unread {}", end.unread)),
        Fact::HoldBack(held) => {
            (u32::from(end.hold_back) == *held, format!("held-back {held}"), format!("held-back {}", end.hold_back))
        }
        Fact::Register(register, word) => {
            let found = end.registers[*register as usize];
            (found == *word, format!("r{register} {word}"), format!("r{register} {found}"))
        }
    };
    (!met).then_some((wanted, found))
}

/// How many words are shown on either side of the first that differs.
const SHOWN: usize = 8;

fn channel_words(name: &str, wanted: &[u32], found: &[u32]) -> Option<String> {
    if wanted == found {
        return None;
    }
    let first = wanted.iter().zip(found).take_while(|(wanted, found)| wanted == found).count();
    let shown = |words: &[u32]| {
        let from = first.saturating_sub(SHOWN / 2);
        let to = words.len().min(from + SHOWN);
        let inner: Vec<String> = words[from.min(to)..to].iter().map(u32::to_string).collect();
        let (before, after) = (if from > 0 { ".. " } else { "" }, if to < words.len() { " .." } else { "" });
        if words.is_empty() {
            "nothing".to_string()
        } else {
            format!("{before}{}{after}", inner.join(" "))
        }
    };
    let counts = format!("{} and {}", many(wanted.len(), "word", "words"), found.len());
    Some(format!(
        "expected {name} {}; found {} ({counts}, the first difference is word {})",
        shown(wanted),
        shown(found),
        first + 1
    ))
}
