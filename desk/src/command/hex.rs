//! `ks hex`: a table and a schedule as hex text with comments, or as bytes.
use crate::args::{self, flag};
use crate::case::{load_any, Source, TABLE};
use crate::failure::Failure;
use crate::hexed;
use crate::output::Outputs;
use crate::{input, told};
use kunzeastylus::Table;

pub fn work(arguments: &[String], outputs: &mut Outputs) -> Result<(), Failure> {
    let said = args::read(arguments, &[flag("--bytes"), TABLE, input::AS])?;
    let case = load_any(Source::only(&said)?)?;
    if said.flag("--bytes") {
        outputs.bytes(&case.table)?;
        outputs.bytes(case.schedule.as_deref().unwrap_or(&[]))?;
    } else {
        let table = Table::of(&case.table).expect("an accepted table");
        outputs.bytes(hexed::table(&case.table, &table, &case.names).as_bytes())?;
        if let Some(schedule) = &case.schedule {
            let text = hexed::schedule(schedule, &case.records(), &case.names);
            outputs.bytes(format!("\n{text}").as_bytes())?;
        }
    }
    told::all_reached(&case)
}
