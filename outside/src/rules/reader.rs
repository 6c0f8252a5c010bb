//! Tables and schedules, judged and read: document 01, "The table", the first paragraph on schedules, and refusals 1 to 12; tables of
//! version 2 and 47 by document 02, W-207.
//!
//! "A refused one, lowest number first": each number is looked for in the whole table before the next one.
use super::lent::Lent;

/// W-207: "The table's length limit becomes 6,276"
pub const TABLE_LENGTH: usize = 6276;

/// "255 for the outside"
pub const OUTSIDE: u8 = 255;

#[derive(Clone, Debug, PartialEq, Eq)]
pub struct Table {
    pub version: u8,
    pub boards: u8,
    pub channels: Vec<Channel>,
    pub processes: Vec<Process>,
}

#[derive(Clone, Copy, Debug, PartialEq, Eq)]
pub struct Channel {
    pub sender: u8,
    pub reader: u8,
}

#[derive(Clone, Debug, PartialEq, Eq)]
pub struct Process {
    pub primary: u8,
    pub backup: u8,
    /// W-207: "a limit byte, 1 to 16"; in a table of version 1 it is 8.
    pub limit: u8,
    pub program: Vec<Instruction>,
}

impl Process {
    /// W-207: "Version 1 is read as limit 8 throughout."
    pub fn new(primary: u8, backup: u8, program: Vec<Instruction>) -> Process {
        Process { primary, backup, limit: 8, program }
    }
}

/// Registers, channels and places are numbers that fit, once judged.
#[derive(Clone, Copy, Debug, PartialEq, Eq)]
pub enum Instruction {
    Set { a: u8, word: u32 },
    Add { a: u8, b: u8 },
    Take { a: u8, channel: u8 },
    First { a: u8, mask: u32 },
    Send { a: u8, channel: u8 },
    Jump { a: u8, place: u8 },
}

/// One record of a schedule: "move, a, word".
#[derive(Clone, Copy, Debug, PartialEq, Eq)]
pub struct Record {
    pub kind: u8,
    pub a: u8,
    pub word: u32,
}

impl Table {
    /// A table of version 1 with no processes yet.
    pub fn new(boards: u8, channels: Vec<Channel>) -> Table {
        Table { version: 1, boards, channels, processes: Vec::new() }
    }

    /// The same in version 2, with a limit for each process.
    pub fn limited(mut self, mut limit: impl FnMut(usize) -> u8) -> Table {
        self.version = 2;
        self.processes.iter_mut().enumerate().for_each(|(p, process)| process.limit = limit(p));
        self
    }

    /// The channels that a process reads, ascending: "Its slots 0 to 3 are those channels, ascending."
    pub fn reads(&self, process: usize) -> impl Iterator<Item = u8> + '_ {
        (0..self.channels.len() as u8).filter(move |&k| self.channels[k as usize].reader as usize == process)
    }

    /// The channels of which a process is the sender.
    pub fn sends(&self, process: usize) -> impl Iterator<Item = u8> + '_ {
        (0..self.channels.len() as u8).filter(move |&k| self.channels[k as usize].sender as usize == process)
    }
}

/// "Bytes 0 and 1: the length of all that follows them"; "Everything is big-endian."
fn length_field(bytes: &[u8]) -> usize {
    u16::from_be_bytes([bytes[0], bytes[1]]) as usize
}

fn word(bytes: &[u8]) -> u32 {
    u32::from_be_bytes([bytes[0], bytes[1], bytes[2], bytes[3]])
}

/// A process record before its numbers are judged.
struct Unjudged<'a> {
    primary: u8,
    backup: u8,
    limit: u8,
    instructions: &'a [u8],
}

/// Pairs and records, if no n is over 64 and they end exactly with the table. W-207: "Table version 2 adds a limit byte, 1 to 16, between
/// the backup board and n."
fn parts(bytes: &[u8], version: u8, channels: u8, processes: u8) -> Option<(&[u8], Vec<Unjudged<'_>>)> {
    let (pairs, mut rest) = bytes.split_at_checked(2 * channels as usize)?;
    let mut records = Vec::new();
    for _ in 0..processes {
        let (&[primary, backup], after) = rest.split_first_chunk::<2>()?;
        let (limit, after) = match version {
            1 => (8, after),
            _ => after.split_first().map(|(&limit, after)| (limit, after))?,
        };
        let (&n, after) = after.split_first()?;
        if n > 64 {
            return None;
        }
        let (instructions, after) = after.split_at_checked(6 * n as usize)?;
        records.push(Unjudged { primary, backup, limit, instructions });
        rest = after;
    }
    rest.is_empty().then_some((pairs, records))
}

/// One instruction of a process, six bytes out of n times six, or `None` for number 8.
fn instruction(table: &Table, process: usize, n: usize, bytes: &[u8]) -> Option<Instruction> {
    let (code, a, operand) = (bytes[0], bytes[1], word(&bytes[2..6]));
    let channel = |k: u32| table.channels.get(k as usize).map(|ends| (k as u8, *ends));
    let reads = |k: u32| channel(k).filter(|(_, ends)| ends.reader as usize == process);
    let sends = |k: u32| channel(k).filter(|(_, ends)| ends.sender as usize == process);
    // "(a at most 2)" for FIRST; "Elsewhere a is 0 to 3".
    if a > 3 || (code == 4 && a > 2) {
        return None;
    }
    match code {
        1 => Some(Instruction::Set { a, word: operand }),
        2 => (operand <= 3).then_some(Instruction::Add { a, b: operand as u8 }),
        3 => reads(operand).map(|(channel, _)| Instruction::Take { a, channel }),
        4 => {
            let mut named = (0..32).filter(|k| operand >> k & 1 == 1);
            let fits = (1..=4).contains(&named.clone().count()) && named.all(|k| reads(k).is_some());
            fits.then_some(Instruction::First { a, mask: operand })
        }
        5 => sends(operand).map(|(channel, _)| Instruction::Send { a, channel }),
        6 => (operand as usize <= n).then_some(Instruction::Jump { a, place: operand as u8 }),
        _ => None,
    }
}

/// The table that the bytes give, or the number, 1 to 8 or 47, by which they are refused.
pub fn judge_table(bytes: &[u8]) -> Result<Table, u8> {
    // "1 table under 6 bytes, length field over 6,260 or not the true one"; W-207: "The table's length limit becomes 6,276"
    if bytes.len() < 6 || length_field(bytes) > TABLE_LENGTH || length_field(bytes) != bytes.len() - 2 {
        return Err(1);
    }
    // W-207: "2 means a version other than 1 or 2"
    let version = bytes[2];
    if !(1..=2).contains(&version) {
        return Err(2);
    }
    // "3 B, P or C"
    let (boards, processes, channels) = (bytes[3], bytes[4], bytes[5]);
    if !(2..=16).contains(&boards) || !(1..=16).contains(&processes) || !(1..=32).contains(&channels) {
        return Err(3);
    }
    // "4 n over 64, or pairs and records not ending exactly with the table"
    let (pairs, records) = parts(&bytes[6..], version, channels, processes).ok_or(4)?;
    // "5 channel ends": "a process number, or 255 for the outside, never both 255"
    let ends = |end: u8| end == OUTSIDE || end < processes;
    if pairs.chunks(2).any(|pair| !ends(pair[0]) || !ends(pair[1]) || (pair[0] == OUTSIDE && pair[1] == OUTSIDE)) {
        return Err(5);
    }
    let mut table = Table {
        version,
        boards,
        channels: pairs.chunks(2).map(|pair| Channel { sender: pair[0], reader: pair[1] }).collect(),
        processes: Vec::new(),
    };
    // "6 more than four channels read"
    if (0..processes as usize).any(|p| table.reads(p).count() > 4) {
        return Err(6);
    }
    // "7 a board not below B, or primary equal to backup"
    if records.iter().any(|r| r.primary >= boards || r.backup >= boards || r.primary == r.backup) {
        return Err(7);
    }
    // "8 an instruction"
    for (p, record) in records.iter().enumerate() {
        let n = record.instructions.len() / 6;
        let mut program = Vec::with_capacity(n);
        for bytes in record.instructions.chunks_exact(6) {
            program.push(instruction(&table, p, n, bytes).ok_or(8)?);
        }
        table.processes.push(Process { primary: record.primary, backup: record.backup, limit: record.limit, program });
    }
    // W-207: "47, a limit outside 1 to 16, checked after 8 and before 9"
    if records.iter().any(|record| !(1..=16).contains(&record.limit)) {
        return Err(47);
    }
    Ok(table)
}

/// The bytes of a schedule's records, or 9 or 10.
pub fn judge_records(bytes: &[u8]) -> Result<&[u8], u8> {
    // "9 schedule under 3 bytes, wrong length field, broken record or over 10,000"
    if bytes.len() < 3 || length_field(bytes) != bytes.len() - 2 {
        return Err(9);
    }
    let records = &bytes[3..];
    if !records.len().is_multiple_of(6) || records.len() / 6 > 10_000 {
        return Err(9);
    }
    // "10 its version"
    if bytes[2] != 1 {
        return Err(10);
    }
    Ok(records)
}

pub fn record(bytes: &[u8]) -> Record {
    Record { kind: bytes[0], a: bytes[1], word: word(&bytes[2..6]) }
}

/// The records of a schedule, or 9 or 10.
pub fn judge_schedule(bytes: &[u8]) -> Result<Vec<Record>, u8> {
    Ok(judge_records(bytes)?.chunks_exact(6).map(record).collect())
}

/// What a run is made of, the records still as bytes, or the number, 1 to 12, 47 or 51, by which it is refused with buffers of these
/// lengths.
pub fn judge_run<'s>(table: &[u8], schedule: &'s [u8], buffers: Lent<usize>) -> Result<(Table, &'s [u8]), u8> {
    let table = judge_table(table)?;
    let records = judge_records(schedule)?;
    buffers.judge(Lent::needed(records.len() / 6, table.processes.len()))?;
    Ok((table, records))
}
