//! What is said of a schedule in words that is not as it was expected to be, by file and line.
use crate::case::Case;
use crate::expect::unmet;
use crate::failure::Failure;
use crate::proved::Ran;
use crate::settle::Stuck;
use crate::words;
use kunzeastylus::{Answer, Table};

/// Every `until` and `settle` that did not get where it should, and every expectation that failed, in the order of their lines.
pub fn unmet_of(case: &Case, ran: &Ran) -> Vec<String> {
    let file = &case.schedule_from.file;
    let records = case.records();
    let stuck = case.unfolded.stuck.iter().map(|at| (at.line, stuck(case, &at.it)));
    let unmet = unmet(&case.table, case.spoken(), &records, ran, &case.unfolded.checks);
    let mut all: Vec<(usize, String)> = stuck.chain(unmet.into_iter().map(|unmet| (unmet.line, unmet.what))).collect();
    all.sort_by_key(|(line, _)| *line);
    all.into_iter().map(|(line, what)| format!("{file}:{line}: {what}")).collect()
}

/// Why an `until` or a `settle` did not get where it should.
pub fn stuck(case: &Case, stuck: &Stuck) -> String {
    match stuck {
        Stuck::Refused { record, answer } => {
            format!("until: record {record} would be {}", case.spoken().answer(*answer, None))
        }
        Stuck::Endless { records } => format!("until: not there after {records} records of the schedule"),
        Stuck::Unquiet { records, still, programs } => {
            let who: Vec<String> = programs.iter().enumerate().map(|(p, now)| stands(case, p, *now)).collect();
            format!("settle: {}: {}", unquiet(*records, *still), who.join("; "))
        }
    }
}

/// That a `settle` of so many records is not quiet, and whether anything can be done.
pub fn unquiet(records: usize, still: bool) -> String {
    let how = if still { "the cabinet stands still" } else { "it could go on" };
    format!("not quiet after {}, and {how}", words::many(records, "record", "records"))
}

/// Where a program stands, what it would do next, and what a step of it would answer.
fn stands(case: &Case, p: usize, (place, answer): (u8, Answer)) -> String {
    let spoken = case.spoken();
    let name = spoken.process(p as u32);
    let table = Table::of(&case.table).expect("an accepted table");
    let next = table.processes[p].program.get(usize::from(place));
    let next = next.map_or("halted".to_string(), |operation| spoken.written(p, *operation));
    match answer.code.refused() {
        true => format!("{name} at place {place}, {next}: {}, {}", answer.code.number(), answer.reason.words()),
        false => format!("{name} at place {place}, {next}, could step"),
    }
}

/// That every `until` and `settle` got where it should.
pub fn all_reached(case: &Case) -> Result<(), Failure> {
    let file = &case.schedule_from.file;
    let said: Vec<String> = case.unfolded.stuck.iter().map(|at| format!("{file}:{}: {}", at.line, stuck(case, &at.it))).collect();
    match said.is_empty() {
        true => Ok(()),
        false => Err(Failure::unmet(said)),
    }
}
