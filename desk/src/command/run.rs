//! `ks run`: the page of a table and a schedule, by the proved bench program; or the same run as JSON, or its bus order.
use crate::args::{self, flag, Said};
use crate::case::{load, Case, Source, TABLE};
use crate::failure::Failure;
use crate::output::Outputs;
use crate::proved::{self, Ran};
use crate::{bench, input, json, told};
use kunzeastylus::BusWord;

const OPTIONS: [args::Known; 5] = [flag("--json"), flag("--bus"), flag("--strict"), TABLE, input::AS];

pub fn work(arguments: &[String], outputs: &mut Outputs) -> Result<(), Failure> {
    let said = args::read(arguments, &OPTIONS)?;
    if said.flag("--json") && said.flag("--bus") {
        return Err(Failure::usage("--json and --bus: one of them is wanted"));
    }
    let as_json = |failure: Failure| match (said.flag("--json"), failure.shown.strip_prefix("refused ")) {
        (true, Some(number)) => {
            let shown = json::refused(number.trim_end(), &failure.said);
            failure.showing(shown)
        }
        _ => failure,
    };
    let case = load(Source::only(&said)?).map_err(as_json)?;
    let schedule = case.schedule.as_deref().unwrap_or(&[]);
    let ran = proved::run(&case.table, schedule).map_err(|number| as_json(case.refused(number)))?;
    match (said.flag("--json"), said.flag("--bus")) {
        (true, _) => outputs.bytes(json::ran(&ran).as_bytes())?,
        (_, true) => outputs.bytes(bus(&case, &ran).as_bytes())?,
        _ => outputs.bytes(&bench::page(&case.table, schedule)?)?,
    }
    ended(&said, &case, &ran)
}

/// Whether all is as it was expected and, with --strict, quiet.
fn ended(said: &Said, case: &Case, ran: &Ran) -> Result<(), Failure> {
    let mut unmet = told::unmet_of(case, ran);
    if said.flag("--strict") && !ran.quiet {
        unmet.push(format!("{}: not quiet at the end", case.schedule_from.file));
    }
    match unmet.is_empty() {
        true => Ok(()),
        false => Err(Failure::unmet(unmet)),
    }
}

/// The bus order, a line for each word: channel, word, sender and place.
fn bus(case: &Case, ran: &Ran) -> String {
    let names = &case.names;
    let line = |word: &BusWord| {
        format!("{} {} {} {}\n", names.channel_name(word.channel), word.word, names.end_name(word.sender), word.place)
    };
    ran.bus.iter().map(line).collect()
}
