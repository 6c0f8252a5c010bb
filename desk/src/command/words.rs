//! `ks words`: a table and a schedule in words.
use crate::args::{self, flag};
use crate::case::{load_any, Case, Source, TABLE};
use crate::failure::Failure;
use crate::form::print;
use crate::output::Outputs;
use crate::proved::{self, Ran};
use crate::{input, told};
use kunzeastylus::{Answer, Table};
use std::fmt::Write;

pub fn work(arguments: &[String], outputs: &mut Outputs) -> Result<(), Failure> {
    let said = args::read(arguments, &[flag("--expect"), TABLE, input::AS])?;
    let case = load_any(Source::only(&said)?)?;
    let table = Table::of(&case.table).expect("an accepted table");
    outputs.bytes(print::table(&table, &case.names).as_bytes())?;
    if let Some(schedule) = &case.schedule {
        let ran = proved::run(&case.table, schedule).map_err(|number| case.refused(number))?;
        let text = match said.flag("--expect") {
            true => expecting(&case, &ran),
            false => print::schedule(&case.records(), &case.names, |_, _| String::new()),
        };
        outputs.bytes(format!("\n{text}").as_bytes())?;
    }
    told::all_reached(&case)
}

/// The schedule, with what the run answers as what is expected. Where equal records in a row have other answers, they stand alone.
fn expecting(case: &Case, ran: &Ran) -> String {
    let mut text = "schedule\n".to_string();
    for (record, answer) in case.records().iter().zip(&ran.answers) {
        let line = print::record(*record, &case.names);
        writeln!(text, "    {line:<28}expect {}", expected(*answer)).unwrap();
    }
    let quiet = if ran.quiet { "quiet" } else { "not quiet" };
    writeln!(text, "    expect {quiet}").unwrap();
    for (p, end) in ran.ends.iter().enumerate() {
        let (name, place) = (&case.names.programs[p], case.names.place_name(p, end.place));
        let [r0, r1, r2, r3] = end.registers;
        let stands = format!("on {} at {place} unread {} held-back {}", end.board, end.unread, end.hold_back);
        writeln!(text, "    expect {name} {stands} r0 {r0} r1 {r1} r2 {r2} r3 {r3}").unwrap();
    }
    for (k, name) in case.names.channels.iter().enumerate() {
        let words: Vec<String> =
            ran.bus.iter().filter(|word| usize::from(word.channel) == k).map(|word| word.word.to_string()).collect();
        let words = if words.is_empty() { "nothing".to_string() } else { words.join(" ") };
        writeln!(text, "    expect {name} {words}").unwrap();
    }
    text
}

/// An answer as `expect` takes it: its name, and its word where it has one.
fn expected(answer: Answer) -> String {
    let name = crate::form::answers::name(answer.code);
    let word = if (1..=5).contains(&answer.code.number()) { format!(" {}", answer.word) } else { String::new() };
    format!("{name}{word}")
}
