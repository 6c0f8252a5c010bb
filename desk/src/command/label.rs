//! `ks label`: the label line. Prints the labels that come out of a schedule, and how many cartons are still without theirs.
use crate::args;
use crate::case::schedule_on;
use crate::failure::Failure;
use crate::form::names::Names;
use crate::output::Outputs;
use crate::place::lent;
use crate::{hex, input, told};
use kunzeastylus::{label_run, label_table, labels, Buffers, End, Label};

/// What is run where no schedule is named, and what is said of it first.
const DEMONSTRATION: &[u8] = include_bytes!("../../../samples/label/pulled.hex");
const ABOUT: &str = "# cartons 501, 502 and 503; board 0 is pulled while the label of 502 is half out\n";

pub fn work(arguments: &[String], outputs: &mut Outputs) -> Result<(), Failure> {
    let said = args::read(arguments, &[input::AS])?;
    let (first, file) = match said.files[..] {
        [first] => (first, None),
        [first, file] => (first, Some(file)),
        _ => return Err(Failure::usage("FIRST, the first serial, is wanted, and at most one SCHEDULE behind it")),
    };
    let first = serial(first)?;
    let refused = |number: u8| Failure::refused(number, lent::serial(first));
    let Some(file) = file else {
        let schedule = hex::bytes(DEMONSTRATION).expect("the demonstration is hex text");
        let labels = printed(first, &schedule).map_err(refused)?;
        return Ok(outputs.text(&format!("{ABOUT}{labels}"))?);
    };
    let table = label_table(first).map_err(|_| refused(46))?;
    let case = schedule_on(table.to_vec(), names(), file, input::kind(&said)?)?;
    let schedule = case.schedule.as_deref().unwrap_or(&[]);
    outputs.text(&printed(first, schedule).map_err(|number| case.refused(number))?)?;
    told::all_reached(&case)
}

/// What the parts of the label line are called in a schedule in words.
fn names() -> Names {
    let strings = |names: [&str; 3]| names.map(str::to_string).to_vec();
    let programs = ["numbering", "printer"].map(str::to_string).to_vec();
    Names { channels: strings(["scanner", "labels", "outlet"]), programs, labels: vec![Vec::new(); 2], cabinet: None }
}

/// A decimal number. One that fits no word is above every first serial that there is, as the largest word is.
fn serial(text: &str) -> Result<u32, Failure> {
    if text.is_empty() || !text.bytes().all(|byte| byte.is_ascii_digit()) {
        return Err(Failure::usage(format!("{text}: FIRST is a decimal number, the first serial")));
    }
    Ok(text.parse().unwrap_or(u32::MAX))
}

fn line(label: &Label) -> String {
    match label.serial {
        Some(serial) => format!("{} {serial}\n", label.code),
        None => format!("{} -\n", label.code),
    }
}

/// The labels that come out of a schedule, one a line, and how many are still to come.
fn printed(first: u32, schedule: &[u8]) -> Result<String, u8> {
    let mut buffers = Buffers::for_label_run(schedule);
    let run = label_run(first, schedule, &mut buffers).map_err(|refusal| refusal.number())?;
    let fed = run.bus().filter(|on_the_bus| on_the_bus.sender == End::Outside).count();
    let labels = labels(&run);
    let complete = labels.iter().filter(|label| label.serial.is_some()).count();
    Ok(labels.iter().map(line).chain([format!("to come {}\n", fed - complete)]).collect())
}
