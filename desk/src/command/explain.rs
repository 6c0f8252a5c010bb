//! `ks explain`: a run in words, for the service desk.
use crate::args::{self, decimal, flag, value, values, Said};
use crate::case::{load, Case, Source, TABLE};
use crate::explain::{Asked, Explaining, Given, Only, Put};
use crate::failure::Failure;
use crate::form::names::Names;
use crate::form::syntax::Ref;
use crate::output::Outputs;
use crate::played::Played;
use crate::{input, told};
use kunzeastylus::{Move, Record};

const OPTIONS: [args::Known; 11] = [
    value("--from", "N"),
    value("--to", "N"),
    value("--only", "WHAT"),
    flag("--all"),
    flag("--summary"),
    values("--pull", "BOARD@N"),
    values("--return", "BOARD@N"),
    values("--resync", "PROCESS@N"),
    flag("--settle"),
    TABLE,
    input::AS,
];

pub fn work(arguments: &[String], outputs: &mut Outputs) -> Result<(), Failure> {
    let arguments = joined(arguments);
    let said = args::read(&arguments, &OPTIONS)?;
    let mut asked = asked(&said)?;
    let mut case = load(Source::only(&said)?)?;
    asked.only = said.value("--only").map(|text| only(text, &case)).transpose()?;
    let mut given = given(&case, &puts(&said, &case.names)?)?;
    let stuck = match said.flag("--settle") {
        true => given.settle(&case.table),
        false => None,
    };
    case.schedule = Some(Record::schedule(&given.records));
    let played = Played::of(case.input()).map_err(|number| case.refused(number))?;
    let run = Explaining::new(&played, &given, case.spoken());
    outputs.text(&run.text(&asked))?;
    let unreached = told::all_reached(&case).err().map_or(Vec::new(), |failure| failure.said);
    let stuck = stuck.map(|stuck| format!("--{}", told::stuck(&case, &stuck)));
    let unmet: Vec<String> = unreached.into_iter().chain(run.refused_puts()).chain(stuck).collect();
    match unmet.is_empty() {
        true => Ok(()),
        false => Err(Failure::unmet(unmet)),
    }
}

/// The same, with what `--only` names in one argument: `--only process 1` is `--only` and `process 1`.
fn joined(arguments: &[String]) -> Vec<String> {
    let mut joined: Vec<String> = Vec::new();
    for argument in arguments {
        match &joined[..] {
            [.., option, what] if option == "--only" && of_what(what).is_some() => {
                let what = joined.pop().unwrap_or_default();
                joined.push(format!("{what} {argument}"));
            }
            _ => joined.push(argument.clone()),
        }
    }
    joined
}

/// What `--only` can name besides refusals and the bus.
#[derive(Clone, Copy)]
enum What {
    Process,
    Channel,
    Board,
}

fn of_what(text: &str) -> Option<What> {
    match text {
        "process" => Some(What::Process),
        "channel" => Some(What::Channel),
        "board" => Some(What::Board),
        _ => None,
    }
}

/// What the lines are to be about; processes and channels by their numbers or names.
fn only(text: &str, case: &Case) -> Result<Only, Failure> {
    let wrong = |why: &str| Failure::usage(format!("--only {text}: {why}"));
    let named = text.split_once([' ', ':', '=']).and_then(|(what, which)| of_what(what).map(|what| (what, which.trim())));
    let Some((what, which)) = named else {
        return match text {
            "refused" => Ok(Only::Refused),
            "bus" => Ok(Only::Bus),
            _ => Err(wrong("refused, bus, process N, channel K or board B is wanted")),
        };
    };
    let reference = decimal(which).and_then(|n| u32::try_from(n).ok()).map_or(Ref::Name(which.to_string()), Ref::Number);
    let (number, count) = match (what, &reference) {
        (What::Process, _) => (case.names.program(0, &reference), case.table[4]),
        (What::Channel, _) => (case.names.channel(0, &reference), case.table[5]),
        (What::Board, Ref::Number(board)) => (Ok(*board), case.table[3]),
        (What::Board, Ref::Name(_)) => return Err(wrong("a board's number is wanted")),
    };
    let number = number.map_err(|unknown| wrong(&unknown.what))?;
    let there = u8::try_from(number).ok().filter(|number| *number < count);
    let number = there.ok_or_else(|| wrong(&format!("the table has {count} of them, from 0 on")))?;
    Ok(match what {
        What::Process => Only::Process(number),
        What::Channel => Only::Channel(number),
        What::Board => Only::Board(number),
    })
}

/// Which lines are wanted.
fn asked(said: &Said) -> Result<Asked, Failure> {
    let from = said.number("--from", 1)?.unwrap_or(1);
    let to = said.number("--to", 1)?.unwrap_or(usize::MAX);
    if from > to {
        return Err(Failure::usage(format!("--from {from} is behind --to {to}")));
    }
    Ok(Asked { from, to, only: None, all: said.flag("--all"), summary: said.flag("--summary") })
}

/// What is put in: before one record first the crashes, then the returns, then the resyncs.
fn puts(said: &Said, names: &Names) -> Result<Vec<Put>, Failure> {
    let each = [("--pull", Move::Crash), ("--return", Move::Return), ("--resync", Move::Resync)];
    each.into_iter().flat_map(|(option, kind)| said.values(option).map(move |text| put(option, kind, text, names))).collect()
}

/// A board or a process, and the record that this is put before. Whether there is such a board or process is the library's to say; a process may
/// also be called by its name.
fn put(option: &str, kind: Move, text: &str, names: &Names) -> Result<Put, Failure> {
    let of_process = kind == Move::Resync;
    let (what, one) = if of_process { ("PROCESS", "a process") } else { ("BOARD", "a board") };
    let wrong = || Failure::usage(format!("{option} {text}: {what}@N is wanted, {one} below 256 and a record's number from 1"));
    let (a, before) = text.split_once('@').ok_or_else(wrong)?;
    let named = names.programs.iter().position(|name| of_process && name == a);
    let a = decimal(a).or(named).and_then(|a| u8::try_from(a).ok()).ok_or_else(wrong)?;
    let before = decimal(before).filter(|&n| n > 0).ok_or_else(wrong)?;
    Ok(Put { kind, a, before })
}

/// The schedule with what is put into it.
fn given(case: &Case, puts: &[Put]) -> Result<Given, Failure> {
    let records = case.records();
    match puts.iter().find(|put| put.before > records.len() + 1) {
        None => Ok(Given::of(&records, puts)),
        Some(put) => {
            let (n, last) = (records.len(), records.len() + 1);
            Err(Failure::usage(format!("{}: the schedule has {n} records, so N is 1 to {last}", put.option(case.spoken()))))
        }
    }
}
