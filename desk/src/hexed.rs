//! A table and a schedule as hex text, with a comment for each part, by the names that they have.
use crate::form::names::Names;
use crate::form::print;
use kunzeastylus::{End, Process, Record, Table};
use std::fmt::Write;

/// Bytes in a line, in pairs, and what they are. A word's four bytes stand together.
fn line(text: &mut String, bytes: &[u8], comment: &str) {
    let pairs = |bytes: &[u8], between: &str| bytes.iter().map(|byte| format!("{byte:02X}")).collect::<Vec<_>>().join(between);
    let shown = match bytes {
        [code, a, word @ ..] if word.len() == 4 => format!("{} {}", pairs(&[*code, *a], " "), pairs(word, "")),
        _ => pairs(bytes, " "),
    };
    writeln!(text, "{shown:<24}# {comment}").unwrap();
}

/// The table.
pub fn table(bytes: &[u8], table: &Table, names: &Names) -> String {
    let mut text = String::new();
    let mut rest = bytes;
    let mut put = |many: usize, comment: &str| {
        let (now, behind) = rest.split_at(many);
        rest = behind;
        line(&mut text, now, comment);
    };
    put(2, "the length of what follows");
    put(4, "version, boards, processes, channels");
    for (k, (sender, reader)) in table.channels.iter().enumerate() {
        put(
            2,
            &format!("channel {k}, {}: from {} to {}", names.channel_name(k as u32), end(*sender, names), end(*reader, names)),
        );
    }
    for (p, process) in table.processes.iter().enumerate() {
        put(3 + usize::from(process.limit.is_some()), &about(p, process, names));
        for (place, operation) in process.program.iter().enumerate() {
            put(6, &format!("  {place:>2} {}", print::instruction(*operation, p, names)));
        }
    }
    text
}

fn end(end: End, names: &Names) -> String {
    match end {
        End::Outside => "the outside".to_string(),
        End::Process(p) => names.program_name(p),
    }
}

fn about(p: usize, process: &Process, names: &Names) -> String {
    let limit = process.limit.map_or(String::new(), |limit| format!("limit {limit}, "));
    let Process { primary, backup, program, .. } = process;
    format!(
        "process {p}, {}: board {primary}, backup board {backup}, {limit}{} instructions",
        names.program_name(p as u32),
        program.len()
    )
}

/// The schedule.
pub fn schedule(bytes: &[u8], records: &[Record], names: &Names) -> String {
    let mut text = String::new();
    line(&mut text, &bytes[..2], "the length of what follows");
    line(&mut text, &bytes[2..3], &format!("version; {}", crate::words::many(records.len(), "record", "records")));
    for (record, number) in records.iter().zip(1..) {
        line(&mut text, &record.bytes(), &format!("{number:>5} {}", print::record(*record, names)));
    }
    text
}
