//! Where it is that a table, a schedule or something lent is refused. The number is the proved call's; the place is found by looking again for
//! what that number means, and a test holds the two together.
pub mod draft;
pub mod lent;
pub mod schedule;
pub mod table;

use crate::form::assemble::TableLines;
use crate::form::names::Names;

/// A part of a table or of a schedule.
#[derive(Clone, Copy, Debug, PartialEq, Eq)]
pub enum Spot {
    Length,
    Version,
    Boards,
    Processes,
    Channels,
    Channel(usize),
    Process(usize),
    Limit(usize),
    Instruction(usize, usize),
    /// Where the table ends.
    End,
    ScheduleLength,
    ScheduleVersion,
    Record(usize),
}

/// What is wrong with a part, for which this number refuses the whole.
#[derive(Clone, Debug, PartialEq, Eq)]
pub struct Fault {
    pub number: u8,
    pub spot: Spot,
    pub what: String,
}

/// What the parts of a table are called in messages: by their numbers, and by their names where they were given some.
#[derive(Clone, Copy, Debug, Default)]
pub struct Called<'n> {
    pub names: Option<&'n Names>,
}

impl Called<'_> {
    pub fn process(self, p: usize) -> String {
        let name = self.names.and_then(|names| names.programs.get(p));
        name.map_or(format!("process {p}"), |name| format!("process {p} ({name})"))
    }

    pub fn channel(self, k: usize) -> String {
        let name = self.names.and_then(|names| names.channels.get(k));
        name.map_or(format!("channel {k}"), |name| format!("channel {k} ({name})"))
    }
}

/// From where a table or a schedule was read: which lines its parts stand in, or which bytes they are.
#[derive(Clone, Debug, PartialEq, Eq)]
pub enum Lines {
    /// The part begins with this byte of a file of bytes.
    Bytes {
        from: usize,
    },
    /// The line of each byte of the part.
    Hex(Vec<usize>),
    Table(TableLines),
    /// The line of the heading, and that of each record.
    Schedule {
        heading: usize,
        records: Vec<usize>,
    },
}

/// A file and the lines of what was read from it.
#[derive(Clone, Debug, PartialEq, Eq)]
pub struct Origin {
    pub file: String,
    pub lines: Lines,
}

impl Origin {
    /// The beginning of a message about a part of these bytes: the file with its line, or with its byte.
    pub fn at(&self, bytes: &[u8], spot: Spot) -> String {
        let file = &self.file;
        match &self.lines {
            Lines::Bytes { from } => format!("{file}: byte {}", from + offset(bytes, spot)),
            Lines::Hex(lines) => {
                let line = lines.get(offset(bytes, spot)).or(lines.last()).copied().unwrap_or(1);
                format!("{file}:{line}")
            }
            Lines::Table(lines) => format!("{file}:{}", table_line(lines, spot)),
            Lines::Schedule { heading, records } => {
                let line = match spot {
                    Spot::Record(i) => records.get(i).or(records.last()).copied(),
                    _ => None,
                };
                format!("{file}:{}", line.unwrap_or(*heading))
            }
        }
    }
}

/// The first byte of a part of a table or schedule, whether it is there or not.
fn offset(bytes: &[u8], spot: Spot) -> usize {
    match spot {
        Spot::Length | Spot::ScheduleLength => 0,
        Spot::Version | Spot::ScheduleVersion => 2,
        Spot::Boards => 3,
        Spot::Processes => 4,
        Spot::Channels => 5,
        Spot::Channel(k) => 6 + 2 * k,
        Spot::Process(p) => draft::record(bytes, p),
        Spot::Limit(p) => draft::record(bytes, p) + 2,
        Spot::Instruction(p, i) => draft::record(bytes, p) + draft::head(bytes) + 6 * i,
        Spot::End => bytes.len().saturating_sub(1),
        Spot::Record(i) => 3 + 6 * i,
    }
}

fn table_line(lines: &TableLines, spot: Spot) -> usize {
    let last = |lines: &[usize]| lines.last().copied();
    let line = match spot {
        Spot::Processes => lines.programs.get(16).copied(),
        Spot::Channels => lines.channels.get(32).copied(),
        Spot::Channel(k) => lines.channels.get(k).copied(),
        Spot::Process(p) | Spot::Limit(p) => lines.programs.get(p).copied(),
        Spot::Instruction(p, i) => lines.instructions.get(p).and_then(|those| those.get(i).copied().or(last(those))),
        _ => None,
    };
    line.unwrap_or(lines.boards)
}

/// A list in words: `0, 2 and 7`.
pub(crate) fn and(those: &[String]) -> String {
    match those {
        [] => String::new(),
        [one] => one.clone(),
        [first @ .., last] => format!("{} and {last}", first.join(", ")),
    }
}
