//! `ks table`: lists of numbers as text become a table, and a table such text.
use crate::args::{self, flag};
use crate::case::{all_right, refused, table_of};
use crate::failure::Failure;
use crate::form::names::Names;
use crate::input;
use crate::output::Outputs;
use crate::{hexed, lists, proved};
use kunzeastylus::{Lists, Table};

pub fn work(arguments: &[String], outputs: &mut Outputs) -> Result<(), Failure> {
    let said = args::read(arguments, &[flag("--bytes"), flag("--apart")])?;
    let file = input::one_file(&said)?;
    match (said.flag("--bytes"), said.flag("--apart")) {
        (true, true) => return Err(Failure::usage("--bytes and --apart: one of them is wanted")),
        (true, false) => outputs.bytes(&written(file)?)?,
        (false, true) => outputs.bytes(apart(file)?.as_bytes())?,
        (false, false) => {
            let table = written(file)?;
            let decoded = Table::of(&table).expect("an accepted table");
            outputs.bytes(hexed::table(&table, &decoded, &Names::made_up(&decoded)).as_bytes())?;
        }
    }
    Ok(())
}

/// The table of a file of text.
fn written(file: &str) -> Result<Vec<u8>, Failure> {
    let (text, wrong) = lists::parse(&input::text(file)?);
    all_right(file, wrong)?;
    proved::write(&text.lists).map_err(|number| {
        let at = |spot| format!("{}:{}", input::name(file), text.line(spot));
        refused(number, lists::faults(&text.lists, number), at)
    })
}

/// The text of a file with a table, in whatever form; a schedule behind it is left out.
fn apart(file: &str) -> Result<String, Failure> {
    let table = table_of(file)?.table;
    Ok(lists::print(&Lists::of(&table).expect("an accepted table")))
}
