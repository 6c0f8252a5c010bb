//! `ks check`: the expectations of files, for a driver bench that passes a release.
use crate::args::{self, flag, value};
use crate::case::{Source, TABLE};
use crate::check::{check, junit, line, tap, worst, Checked};
use crate::failure::{Exit, Failure};
use crate::input;
use crate::output::Outputs;

const OPTIONS: [args::Known; 5] = [flag("--strict"), flag("--tap"), value("--junit", "FILE"), TABLE, input::AS];

pub fn work(arguments: &[String], outputs: &mut Outputs) -> Result<(), Failure> {
    let said = args::read(arguments, &OPTIONS)?;
    let sources = Source::each(&said)?;
    if sources.is_empty() {
        return Err(Failure::usage("a file is wanted, or several, or - for standard input"));
    }
    let as_tap = said.flag("--tap");
    if as_tap {
        outputs.bytes(format!("TAP version 13\n1..{}\n", sources.len()).as_bytes())?;
    }
    let mut all: Vec<Checked> = Vec::new();
    check(&sources, said.flag("--strict"), |checked| {
        all.push(checked);
        let (checked, style) = (&all[all.len() - 1], outputs.out_style);
        match as_tap {
            true => outputs.bytes(tap(checked, all.len()).as_bytes())?,
            false => outputs.text(&line(checked, style))?,
        }
        outputs.out.flush()
    })?;
    if let Some(file) = said.value("--junit") {
        std::fs::write(file, junit(&all)).map_err(|error| Failure::fault(format!("{file}: can't be written: {error}")))?;
    }
    ended(&all, as_tap)
}

/// With the code of the worst file; what is wrong with each is said, unless TAP has it already.
fn ended(all: &[Checked], as_tap: bool) -> Result<(), Failure> {
    let Some(exit) = worst(all) else { return Ok(()) };
    let failure = |said| match exit {
        Exit::Unmet => Failure::unmet(said),
        Exit::Refused => Failure::refused(0, said).showing(String::new()),
        Exit::Unasked => Failure::all_unread(said),
        Exit::Fault => Failure { said, ..Failure::fault("") },
    };
    let said = all.iter().filter(|_| !as_tap).flat_map(|checked| checked.said.clone());
    Err(failure(said.collect()))
}
