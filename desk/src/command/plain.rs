//! `ks plain`: the plain run of a run, for whoever wants to see demand 3.
use crate::args::{self, flag, Said};
use crate::case::{load, Source, TABLE};
use crate::failure::Failure;
use crate::output::Outputs;
use crate::plain::{plain, Form};
use crate::played::Played;
use crate::{input, told};

const OPTIONS: [args::Known; 4] = [flag("--moves"), flag("--json"), TABLE, input::AS];

pub fn work(arguments: &[String], outputs: &mut Outputs) -> Result<(), Failure> {
    let said = args::read(arguments, &OPTIONS)?;
    let form = form(&said)?;
    let case = load(Source::only(&said)?)?;
    let played = Played::of(case.input()).map_err(|number| case.refused(number))?;
    let fault =
        |fault| Failure::fault(format!("{}: no plain run explains it, by a fault of ours: {fault}", case.schedule_from.file));
    let text = plain(&played, form).map_err(fault)?;
    match form {
        Form::Words => outputs.text(&text)?,
        Form::Moves | Form::Json => outputs.bytes(text.as_bytes())?,
    }
    told::all_reached(&case)
}

fn form(said: &Said) -> Result<Form, Failure> {
    match (said.flag("--moves"), said.flag("--json")) {
        (false, false) => Ok(Form::Words),
        (true, false) => Ok(Form::Moves),
        (false, true) => Ok(Form::Json),
        (true, true) => Err(Failure::usage("--moves and --json: one of them is wanted")),
    }
}
