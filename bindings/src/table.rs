//! Tables by a builder whose types are document 01's. Processes, boards, channels, registers and places are bytes, as they are in a table.
use crate::lists::{Counts, Lists};
use crate::record::{Instruction, OUTSIDE};
use crate::refusal::Refusal;

/// How many acts ask for a sync where a table has no limits.
pub const LIMIT: u8 = 8;

/// An end of a channel.
#[derive(Clone, Copy, Debug, PartialEq, Eq, Hash)]
pub enum End {
    Process(u8),
    Outside,
}

impl From<End> for u8 {
    fn from(end: End) -> u8 {
        match end {
            End::Process(process) => process,
            End::Outside => OUTSIDE,
        }
    }
}

impl From<u8> for End {
    fn from(number: u8) -> End {
        match number {
            OUTSIDE => End::Outside,
            process => End::Process(process),
        }
    }
}

/// An instruction with its register and what it names.
#[derive(Clone, Copy, Debug, PartialEq, Eq, Hash)]
pub enum Operation {
    Set {
        register: u8,
        word: u32,
    },
    Add {
        register: u8,
        other: u8,
    },
    Take {
        register: u8,
        channel: u8,
    },
    /// Bit k of the mask stands for channel k; the channel's number goes into the next register.
    First {
        register: u8,
        mask: u32,
    },
    Send {
        register: u8,
        channel: u8,
    },
    Jump {
        register: u8,
        place: u8,
    },
}

impl Operation {
    fn numbers(self) -> [u32; 3] {
        let (code, a, operand) = match self {
            Operation::Set { register, word } => (Instruction::Set, register, word),
            Operation::Add { register, other } => (Instruction::Add, register, other.into()),
            Operation::Take { register, channel } => (Instruction::Take, register, channel.into()),
            Operation::First { register, mask } => (Instruction::First, register, mask),
            Operation::Send { register, channel } => (Instruction::Send, register, channel.into()),
            Operation::Jump { register, place } => (Instruction::Jump, register, place.into()),
        };
        [code.number().into(), a.into(), operand]
    }

    /// By the numbers of an accepted table.
    fn of(numbers: &[u32]) -> Operation {
        let (register, operand) = (byte(numbers[1]), numbers[2]);
        match Instruction::try_from(byte(numbers[0])).expect("an accepted table has codes 1 to 6") {
            Instruction::Set => Operation::Set { register, word: operand },
            Instruction::Add => Operation::Add { register, other: byte(operand) },
            Instruction::Take => Operation::Take { register, channel: byte(operand) },
            Instruction::First => Operation::First { register, mask: operand },
            Instruction::Send => Operation::Send { register, channel: byte(operand) },
            Instruction::Jump => Operation::Jump { register, place: byte(operand) },
        }
    }
}

/// All numbers of an accepted table but words and masks are bytes.
fn byte(number: u32) -> u8 {
    number.try_into().expect("an accepted table has bytes here")
}

/// The number of what was added last to a list. One that fits no byte is of a table that is refused, by its counts.
fn last<T>(list: &[T]) -> u8 {
    u8::try_from(list.len() - 1).unwrap_or(u8::MAX)
}

/// A process: its two boards, its sync limit and its program.
#[derive(Clone, Debug, PartialEq, Eq, Hash)]
pub struct Process {
    pub primary: u8,
    pub backup: u8,
    /// How many acts ask for a sync, 1 to 16; `None` is `LIMIT`.
    pub limit: Option<u8>,
    pub program: Vec<Operation>,
}

/// A table as it is said. It is of version 2 where some process has a limit of its own, and otherwise of version 1; [`Lists`] name a version.
#[derive(Clone, Debug, Default, PartialEq, Eq, Hash)]
pub struct Table {
    pub boards: u8,
    /// Sender and reader.
    pub channels: Vec<(End, End)>,
    pub processes: Vec<Process>,
}

impl Table {
    pub fn new(boards: u8) -> Table {
        Table { boards, ..Table::default() }
    }

    /// Adds a channel, and returns its number.
    pub fn channel(&mut self, sender: End, reader: End) -> u8 {
        self.channels.push((sender, reader));
        last(&self.channels)
    }

    /// Adds a process, and returns its number.
    pub fn process(&mut self, primary: u8, backup: u8, program: &[Operation]) -> u8 {
        self.processes.push(Process { primary, backup, limit: None, program: program.to_vec() });
        last(&self.processes)
    }

    /// Gives a process of this table a sync limit.
    pub fn limit(&mut self, process: u8, limit: u8) {
        self.processes[usize::from(process)].limit = Some(limit);
    }

    /// The same as lists of numbers.
    pub fn lists(&self) -> Lists {
        // A count that fits no number is over every limit either way.
        let count = |n: usize| u32::try_from(n).unwrap_or(u32::MAX);
        let limits: Vec<u32> = match self.processes.iter().any(|p| p.limit.is_some()) {
            true => self.processes.iter().map(|p| p.limit.unwrap_or(LIMIT).into()).collect(),
            false => Vec::new(),
        };
        Lists {
            version: if limits.is_empty() { 1 } else { 2 },
            counts: Counts {
                boards: self.boards.into(),
                processes: count(self.processes.len()),
                channels: count(self.channels.len()),
            },
            ends: self.channels.iter().flat_map(|&(sender, reader)| [sender, reader]).map(|end| u8::from(end).into()).collect(),
            placements: self.processes.iter().flat_map(|p| [p.primary.into(), p.backup.into(), count(p.program.len())]).collect(),
            limits,
            instructions: self.processes.iter().flat_map(|p| &p.program).flat_map(|operation| operation.numbers()).collect(),
        }
    }

    /// Its bytes.
    pub fn bytes(&self) -> Result<Vec<u8>, Refusal> {
        self.lists().table()
    }

    /// What a table's bytes say.
    pub fn of(table: &[u8]) -> Result<Table, Refusal> {
        let lists = Lists::of(table)?;
        let mut operations = lists.instructions.chunks_exact(3).map(Operation::of);
        Ok(Table {
            boards: byte(lists.counts.boards),
            channels: lists.ends.chunks_exact(2).map(|pair| (End::from(byte(pair[0])), End::from(byte(pair[1])))).collect(),
            processes: lists
                .placements
                .chunks_exact(3)
                .enumerate()
                .map(|(i, p)| Process {
                    primary: byte(p[0]),
                    backup: byte(p[1]),
                    limit: lists.limits.get(i).copied().map(byte),
                    program: operations.by_ref().take(p[2] as usize).collect(),
                })
                .collect(),
        })
    }
}
