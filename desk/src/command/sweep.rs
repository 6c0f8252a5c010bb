//! `ks sweep`: every place to pull a board, for the driver bench.
use crate::args::{self, flag, value, Said};
use crate::case::{load, Source, TABLE};
use crate::explain::Input;
use crate::failure::Failure;
use crate::input;
use crate::output::Outputs;
use crate::progress::Progress;
use crate::sweep::{counts, sweep, Ending, Map};
use kunzeastylus::Sweep;

const OPTIONS: [args::Known; 6] =
    [flag("--map"), value("--width", "N"), value("--list", "ENDING"), flag("--require-quiet"), TABLE, input::AS];

pub fn work(arguments: &[String], outputs: &mut Outputs) -> Result<(), Failure> {
    let said = args::read(arguments, &OPTIONS)?;
    let (ending, width) = wanted(&said)?;
    let case = load(Source::only(&said)?)?;
    let input = case.input();
    let swept = sweep(&input).map_err(|refusal| case.refused(refusal.number()))?;
    match ending {
        Some(ending) => outputs.bytes(map(&input, swept).list(ending).as_bytes())?,
        None => outputs.text(&counts(&input, swept))?,
    }
    if said.flag("--map") {
        let width = width.unwrap_or(outputs.out_style.width);
        outputs.bytes(format!("\n{}", map(&input, swept).text(width)).as_bytes())?;
    }
    let unquiet = swept.held + swept.open;
    match said.flag("--require-quiet") && unquiet > 0 {
        true => Err(Failure::unmet(vec![format!("{}: {unquiet} of {} runs end unquiet", case.schedule_from.file, swept.runs())])),
        false => Ok(()),
    }
}

/// The ending whose places are listed, if any, and the map's width, if it is said.
fn wanted(said: &Said) -> Result<(Option<Ending>, Option<usize>), Failure> {
    let ending = said.value("--list").map(ending).transpose()?;
    if ending.is_some() && said.flag("--map") {
        return Err(Failure::usage("--map and --list: one of them is wanted"));
    }
    let width = said.number("--width", 20)?;
    if width.is_some() && !said.flag("--map") {
        return Err(Failure::usage("--width is of --map: nothing else is folded"));
    }
    Ok((ending, width))
}

fn ending(text: &str) -> Result<Ending, Failure> {
    let wrong = || Failure::usage(format!("--list {text}: one of quiet, held and open is wanted"));
    Ending::ALL.into_iter().find(|ending| ending.name() == text).ok_or_else(wrong)
}

/// The endings one by one; where that takes over a second, it is said how far it is.
fn map(input: &Input, swept: Sweep) -> Map {
    let mut progress = Progress::begin();
    Map::of(input, swept, |made| progress.tell("ks sweep", made, swept.runs(), "runs"))
}
