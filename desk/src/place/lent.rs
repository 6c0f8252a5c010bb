//! What is wrong with what a call is lent, by the number that refuses it: 11, 12 and 51 of a run, 45 of the writer, 46 of the label line.
use kunzeastylus::Lengths;

/// The last first serial: 10,000 labels from there on fit a word.
const SERIAL_MOST: u32 = 4_294_957_295;

/// All buffers that are too short for a run of so many records on so many processes, for this number.
pub fn buffers(records: usize, processes: usize, lent: Lengths, number: u8) -> Vec<String> {
    let needed = Lengths::needed(records, processes);
    let short = |what: &str, has: usize, needs: usize, of: usize, thing: &str| {
        (has < needs).then(|| format!("the buffer of {what} has {has} bytes, and {of} {thing} need {needs}"))
    };
    let found = match number {
        11 => vec![
            short("answers", lent.answers, needed.answers, records, "records"),
            short("reasons", lent.reasons, needed.reasons, records, "records"),
        ],
        12 => vec![short("the report", lent.report, needed.report, processes, "processes")],
        51 => vec![short("origins", lent.origins, needed.origins, records, "records")],
        _ => Vec::new(),
    };
    found.into_iter().flatten().collect()
}

/// 45: the writer's buffer, and the table that it has no room for.
pub fn output(table: usize, lent: usize) -> Vec<String> {
    (lent < table).then(|| format!("the buffer has {lent} bytes, and the table needs {table}")).into_iter().collect()
}

/// 46: a first serial that is too high.
pub fn serial(first: u32) -> Vec<String> {
    let over = first > SERIAL_MOST;
    over.then(|| format!("the first serial is {first}, and {SERIAL_MOST} is the last one that leaves room for 10,000 labels"))
        .into_iter()
        .collect()
}
