//! `ks step`: a run record by record, for programmers.
use crate::args;
use crate::case::{load, Source, TABLE};
use crate::failure::Failure;
use crate::input;
use crate::output::Outputs;
use crate::step::{session, Front, Stepper};
use std::io::{stdin, stdout, IsTerminal};

pub fn work(arguments: &[String], outputs: &mut Outputs) -> Result<(), Failure> {
    let said = args::read(arguments, &[TABLE, input::AS])?;
    let source = Source::only(&said)?;
    if source.file == "-" || source.table == Some("-") {
        return Err(Failure::usage("standard input is where the commands come from: name a file"));
    }
    let case = load(source)?;
    let mut stepper = Stepper::new(case.input(), case.names).expect("an accepted run");
    let asks = stdin().is_terminal();
    let dumb = std::env::var_os("TERM").is_none_or(|term| term == "dumb");
    let front = Front { asks, screen: asks && !dumb && stdout().is_terminal(), style: outputs.out_style };
    Ok(session(&mut stepper, stdin().lock(), &mut outputs.out, front)?)
}
