//! What a text in the form says, with the line of each part: names are not looked up yet.
use super::answers::{Outcome, Why};
use kunzeastylus::Move;

/// A channel, a program or a place, by its name or by its number.
#[derive(Clone, Debug, PartialEq, Eq)]
pub enum Ref {
    Name(String),
    Number(u32),
}

/// Something with the line that it stands in.
#[derive(Clone, Debug, PartialEq, Eq)]
pub struct At<T> {
    pub line: usize,
    pub it: T,
}

/// A channel's end: a program, or the outside.
#[derive(Clone, Debug, PartialEq, Eq)]
pub enum End {
    Outside,
    Program(Ref),
}

#[derive(Clone, Debug, PartialEq, Eq)]
pub struct Channel {
    pub name: Ref,
    pub sender: End,
    pub reader: End,
}

#[derive(Clone, Debug, PartialEq, Eq)]
pub struct Program {
    pub name: Ref,
    pub primary: u32,
    pub backup: u32,
    pub limit: Option<u32>,
    /// Each label with the place that it names.
    pub labels: Vec<At<(String, u32)>>,
    pub instructions: Vec<At<Instruction>>,
}

#[derive(Clone, Debug, PartialEq, Eq)]
pub enum Instruction {
    Set { register: u32, word: u32 },
    Add { register: u32, other: u32 },
    Take { register: u32, channel: Ref },
    First { register: u32, channels: Vec<Ref> },
    Send { register: u32, channel: Ref },
    Jump { place: Ref, register: u32 },
}

/// What a record of a schedule does.
#[derive(Clone, Debug, PartialEq, Eq)]
pub enum Action {
    Feed {
        channel: Ref,
        words: Vec<u32>,
    },
    /// A step, sync or resync.
    OfProgram {
        kind: Move,
        program: Ref,
    },
    /// A carry, crash or return.
    OfBoard {
        kind: Move,
        board: u32,
    },
    Back,
    /// Any record at all, by its numbers.
    Raw {
        kind: u32,
        a: u32,
        word: u32,
    },
}

/// The answer that is expected of a record.
#[derive(Clone, Copy, Debug, PartialEq, Eq)]
pub struct Expected {
    pub outcome: Outcome,
    /// The answer's word.
    pub word: Option<u32>,
    pub why: Option<Why>,
}

/// What is expected of a program.
#[derive(Clone, Debug, PartialEq, Eq)]
pub enum Fact {
    On(u32),
    At(Ref),
    Halted,
    Unread(u32),
    HoldBack(u32),
    Register(u32, u32),
}

/// What is expected of the cabinet where a line stands.
#[derive(Clone, Debug, PartialEq, Eq)]
pub enum Wanted {
    Quiet(bool),
    Program(Ref, Vec<Fact>),
    /// All words that were on the bus of a channel, in order.
    Channel(Ref, Vec<u32>),
}

/// A line of a schedule.
#[derive(Clone, Debug, PartialEq, Eq)]
pub enum Statement {
    /// So many times, and what each answer is expected to be.
    Do {
        action: Action,
        times: u32,
        expected: Option<Expected>,
    },
    /// Again and again until the answer is this.
    Until {
        action: Action,
        outcome: Outcome,
    },
    /// On until quiet, by so many records at most.
    Settle {
        within: Option<u32>,
    },
    Expect(Wanted),
}

/// A whole text.
#[derive(Clone, Debug, Default, PartialEq, Eq)]
pub struct Text {
    pub cabinet: Option<At<String>>,
    pub boards: Option<At<u32>>,
    pub channels: Vec<At<Channel>>,
    pub programs: Vec<At<Program>>,
    /// The line of the heading, and what stands below it.
    pub schedule: Option<At<Vec<At<Statement>>>>,
}

impl Text {
    /// Whether it has anything of a table.
    pub fn table(&self) -> Option<usize> {
        let lines = [self.boards.as_ref().map(|at| at.line), self.channels.first().map(|at| at.line)];
        lines.into_iter().chain([self.programs.first().map(|at| at.line)]).flatten().min()
    }
}
