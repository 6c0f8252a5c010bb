//! `ks picture`: a run to look at.
use crate::args::{self, flag, value};
use crate::case::{load, Source, TABLE};
use crate::failure::Failure;
use crate::output::Outputs;
use crate::picture::{opening, page, picture, Story};
use crate::played::Played;
use crate::{input, told};
use std::ops::Range;

const OPTIONS: [args::Known; 5] = [flag("--svg"), value("--from", "N"), value("--to", "N"), TABLE, input::AS];

pub fn work(arguments: &[String], outputs: &mut Outputs) -> Result<(), Failure> {
    let said = args::read(arguments, &OPTIONS)?;
    let (from, to) = (said.number("--from", 1)?, said.number("--to", 1)?);
    if !said.flag("--svg") && (from.is_some() || to.is_some()) {
        return Err(Failure::usage("--from and --to are of --svg: a page has all records"));
    }
    let case = load(Source::only(&said)?)?;
    let played = Played::of(case.input()).map_err(|number| case.refused(number))?;
    let story = Story::of(played).named(&case.names);
    let text = match said.flag("--svg") {
        true => picture(&story, records(&story, from, to)?),
        false => page(&story),
    };
    outputs.bytes(text.as_bytes())?;
    told::all_reached(&case)
}

/// The records that are wanted, from 0: those around the first crash where nothing is said.
fn records(story: &Story, from: Option<usize>, to: Option<usize>) -> Result<Range<usize>, Failure> {
    let count = story.moments.len();
    match (from, to) {
        (None, None) => Ok(opening(story)),
        _ => {
            let range = from.unwrap_or(1) - 1..to.unwrap_or(count).min(count);
            match range.is_empty() {
                true => {
                    Err(Failure::usage(format!("--from {} and --to {}: the run has {count} records", range.start + 1, range.end)))
                }
                false => Ok(range),
            }
        }
    }
}
