//! A cabinet and a schedule, printed in words: what is read back gives the same bytes.
use super::names::Names;
use kunzeastylus::{Move, Operation, Process, Record, Table};
use std::fmt::Write;

/// The table.
pub fn table(table: &Table, names: &Names) -> String {
    let mut text = String::new();
    if let Some(cabinet) = &names.cabinet {
        writeln!(text, "cabinet {cabinet}").unwrap();
    }
    writeln!(text, "boards {}", table.boards).unwrap();
    let wide = names.channels.iter().map(|name| name.chars().count()).max().unwrap_or(0);
    for ((sender, reader), name) in table.channels.iter().zip(&names.channels) {
        writeln!(text, "channel {name:<wide$}  {} -> {}", names.end_name(*sender), names.end_name(*reader)).unwrap();
    }
    for (p, process) in table.processes.iter().enumerate() {
        program(p, process, names, &mut text);
    }
    text
}

fn program(p: usize, process: &Process, names: &Names, text: &mut String) {
    let limit = process.limit.map_or(String::new(), |limit| format!(" limit {limit}"));
    writeln!(text, "\nprogram {} on {} backup {}{limit}", names.programs[p], process.primary, process.backup).unwrap();
    let labels = |place: usize, text: &mut String| {
        for (label, _) in names.labels[p].iter().filter(|(_, at)| *at as usize == place) {
            writeln!(text, "{label}:").unwrap();
        }
    };
    for (place, operation) in process.program.iter().enumerate() {
        labels(place, text);
        writeln!(text, "    {}", instruction(*operation, p, names)).unwrap();
    }
    labels(process.program.len(), text);
}

/// An instruction of program `p`.
pub fn instruction(operation: Operation, p: usize, names: &Names) -> String {
    match operation {
        Operation::Set { register, word } => format!("set r{register} {word}"),
        Operation::Add { register, other } => format!("add r{register} r{other}"),
        Operation::Take { register, channel: k } => format!("take r{register} {}", names.channel_name(k)),
        Operation::First { register, mask } => {
            let channels: Vec<String> = (0..32u8).filter(|k| mask >> k & 1 == 1).map(|k| names.channel_name(k)).collect();
            format!("first r{register} {}", channels.join(" "))
        }
        Operation::Send { register, channel: k } => format!("send r{register} {}", names.channel_name(k)),
        Operation::Jump { register, place } => format!("jump {} if r{register}", names.place_name(p, place)),
    }
}

/// The schedule; equal records in a row are one line. `behind` is put behind a line, for so many records from this one on.
pub fn schedule(records: &[Record], names: &Names, mut behind: impl FnMut(usize, usize) -> String) -> String {
    let mut text = "schedule\n".to_string();
    let mut at = 0;
    while at < records.len() {
        let equal = records[at..].iter().take_while(|record| **record == records[at]).count();
        let feed = records[at].kind() == Some(Move::Feed);
        let many = if feed { 1 } else { equal };
        let times = if many > 1 { format!(" x{many}") } else { String::new() };
        let line = format!("    {}{times}", record(records[at], names));
        let behind = behind(at, many);
        match behind.is_empty() {
            true => writeln!(text, "{line}").unwrap(),
            false => writeln!(text, "{line:<32}{behind}").unwrap(),
        }
        at += many;
    }
    text
}

/// A record.
pub fn record(record: Record, names: &Names) -> String {
    let (a, word) = (u32::from(record.a), record.word);
    let of_program = |name: &str| format!("{name} {}", names.program_name(a));
    match record.kind() {
        Some(Move::Feed) => format!("feed {} {word}", names.channel_name(a)),
        Some(Move::Back) if (a, word) == (0, 0) => "back".to_string(),
        Some(Move::Step) if word == 0 => of_program("step"),
        Some(Move::Sync) if word == 0 => of_program("sync"),
        Some(Move::Resync) if word == 0 => of_program("resync"),
        Some(Move::Carry) if word == 0 => format!("carry {a}"),
        Some(Move::Crash) if word == 0 => format!("crash {a}"),
        Some(Move::Return) if word == 0 => format!("return {a}"),
        _ => format!("move {} {a} {word}", record.code),
    }
}
