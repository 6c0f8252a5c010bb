//! `ks compare`: two runs side by side.
use crate::args;
use crate::case::{load, Case, Source, TABLE};
use crate::compare::{compare, Side};
use crate::failure::Failure;
use crate::output::Outputs;
use crate::proved::{self, Ran};
use crate::{input, told};

pub fn work(arguments: &[String], outputs: &mut Outputs) -> Result<(), Failure> {
    let said = args::read(arguments, &[TABLE, input::AS])?;
    let sources = Source::each(&said)?;
    let [a, b] = sources[..] else {
        return Err(Failure::usage(format!("two files are wanted, A and B; named: {}", sources.len())));
    };
    let ((a, left), (b, right)) = (ran(a)?, ran(b)?);
    let width = outputs.out_style.width;
    let (text, equal) = compare(&Side { case: &a, ran: &left }, &Side { case: &b, ran: &right }, width);
    outputs.bytes(text.as_bytes())?;
    told::all_reached(&a)?;
    told::all_reached(&b)?;
    match equal {
        true => Ok(()),
        false => Err(Failure::unmet(vec![format!("{} and {} differ", a.schedule_from.file, b.schedule_from.file)])),
    }
}

fn ran(source: Source) -> Result<(Case, Ran), Failure> {
    let case = load(source)?;
    let schedule = case.schedule.as_deref().unwrap_or(&[]);
    let ran = proved::run(&case.table, schedule).map_err(|number| case.refused(number))?;
    Ok((case, ran))
}
