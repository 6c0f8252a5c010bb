//! What a text says, in numbers: the table's lists, which the proved writer takes, and a plan of the schedule.
use super::answers::Outcome;
use super::lexer::Wrong;
use super::names::Names;
use super::syntax::{Action, At, Channel, End, Expected, Fact, Instruction, Program, Ref, Statement, Text, Wanted};
use crate::records::RECORDS_MOST;
use kunzeastylus::{Counts, Instruction as Code, Lists, Record, LIMIT, OUTSIDE};

/// The line of each part of a table.
#[derive(Clone, Debug, Default, PartialEq, Eq)]
pub struct TableLines {
    pub boards: usize,
    pub channels: Vec<usize>,
    pub programs: Vec<usize>,
    pub instructions: Vec<Vec<usize>>,
}

/// What is expected of the cabinet, in numbers.
#[derive(Clone, Debug, PartialEq, Eq)]
pub enum Want {
    Quiet(bool),
    Program(usize, Vec<Fact>),
    Channel(u8, Vec<u32>),
}

/// A part of a schedule.
#[derive(Clone, Debug, PartialEq, Eq)]
pub enum Step {
    Records { records: Vec<Record>, expected: Option<Expected> },
    Until { record: Record, outcome: Outcome },
    Settle { within: Option<u32> },
    Expect(Want),
}

/// The table of a text, as lists.
pub fn table(text: &Text, names: &Names, wrong: &mut Vec<Wrong>) -> (Lists, TableLines) {
    let first = text.table().unwrap_or(1);
    if text.boards.is_none() {
        wrong.push(Wrong::new(first, "found no `boards`, expected how many there are: `boards 2`"));
    }
    let mut lookup = Lookup { names, wrong };
    let placements = |program: &Program| [program.primary, program.backup, program.instructions.len() as u32];
    let limited = text.programs.iter().any(|program| program.it.limit.is_some());
    let limits = text.programs.iter().map(|program| program.it.limit.unwrap_or(LIMIT.into()));
    let lists = Lists {
        version: if limited { 2 } else { 1 },
        counts: Counts {
            boards: text.boards.as_ref().map_or(0, |boards| boards.it),
            processes: text.programs.len() as u32,
            channels: text.channels.len() as u32,
        },
        ends: text.channels.iter().flat_map(|channel| lookup.ends(channel)).collect(),
        placements: text.programs.iter().flat_map(|program| placements(&program.it)).collect(),
        limits: limits.filter(|_| limited).collect(),
        instructions: text.programs.iter().enumerate().flat_map(|(p, program)| lookup.program(p, &program.it)).collect(),
    };
    (lists, lines(text, first))
}

/// Names looked up for their numbers; what names nothing is noted, and has 0.
struct Lookup<'a> {
    names: &'a Names,
    wrong: &'a mut Vec<Wrong>,
}

impl Lookup<'_> {
    fn noted(&mut self, found: Result<u32, Wrong>) -> u32 {
        found.unwrap_or_else(|wrong| {
            self.wrong.push(wrong);
            0
        })
    }

    /// Sender and reader of a channel.
    fn ends(&mut self, channel: &At<Channel>) -> [u32; 2] {
        [&channel.it.sender, &channel.it.reader].map(|end| match end {
            End::Outside => OUTSIDE.into(),
            End::Program(program) => self.noted(self.names.program(channel.line, program)),
        })
    }

    /// The instructions of program `p`, in a row.
    fn program(&mut self, p: usize, program: &Program) -> Vec<u32> {
        program.instructions.iter().flat_map(|instruction| self.instruction(p, instruction)).collect()
    }

    /// Code, `a` and operand of an instruction of program `p`.
    fn instruction(&mut self, p: usize, instruction: &At<Instruction>) -> [u32; 3] {
        let (line, names) = (instruction.line, self.names);
        let (code, register, operand) = match &instruction.it {
            Instruction::Set { register, word } => (Code::Set, register, Ok(*word)),
            Instruction::Add { register, other } => (Code::Add, register, Ok(*other)),
            Instruction::Take { register, channel } => (Code::Take, register, names.channel(line, channel)),
            Instruction::First { register, channels } => (Code::First, register, mask(line, channels, names)),
            Instruction::Send { register, channel } => (Code::Send, register, names.channel(line, channel)),
            Instruction::Jump { place, register } => (Code::Jump, register, names.place(line, p, place)),
        };
        [code.number().into(), *register, self.noted(operand)]
    }
}

fn lines(text: &Text, first: usize) -> TableLines {
    let of_program = |program: &At<Program>| program.it.instructions.iter().map(|instruction| instruction.line).collect();
    TableLines {
        boards: text.boards.as_ref().map_or(first, |boards| boards.line),
        channels: text.channels.iter().map(|channel| channel.line).collect(),
        programs: text.programs.iter().map(|program| program.line).collect(),
        instructions: text.programs.iter().map(of_program).collect(),
    }
}

/// Bit k stands for channel k.
fn mask(line: usize, channels: &[Ref], names: &Names) -> Result<u32, Wrong> {
    let mut mask = 0u32;
    for channel in channels {
        let number = names.channel(line, channel)?;
        let bit = 1u32
            .checked_shl(number)
            .ok_or_else(|| Wrong::new(line, format!("found `{number}`, expected a channel's number, 0 to 31")))?;
        if mask & bit != 0 {
            return Err(Wrong::new(line, format!("found channel {} twice, expected each once", names.channel_name(number))));
        }
        mask |= bit;
    }
    Ok(mask)
}

/// The plan of a schedule, and what in it names nothing. No more records are laid out than one that is too many.
pub fn plan(statements: &[At<Statement>], names: &Names, wrong: &mut Vec<Wrong>) -> Vec<At<Step>> {
    let mut room = RECORDS_MOST + 1;
    let mut plan = Vec::new();
    for At { line, it } in statements {
        match step(it, *line, names, room) {
            Ok(it) => {
                if let Step::Records { records, .. } = &it {
                    room -= records.len();
                }
                plan.push(At { line: *line, it });
            }
            Err(error) => wrong.push(error),
        }
    }
    plan
}

fn step(statement: &Statement, line: usize, names: &Names, room: usize) -> Result<Step, Wrong> {
    Ok(match statement {
        Statement::Do { action, times, expected } => {
            let once = records(action, line, names)?;
            let all = once.len().saturating_mul(*times as usize).min(room);
            Step::Records { records: once.iter().copied().cycle().take(all).collect(), expected: *expected }
        }
        Statement::Until { action, outcome } => match records(action, line, names)?[..] {
            [record] => Step::Until { record, outcome: *outcome },
            _ => return Err(Wrong::new(line, "found several words, expected one before `until`")),
        },
        Statement::Settle { within } => Step::Settle { within: *within },
        Statement::Expect(wanted) => Step::Expect(want(wanted, line, names)?),
    })
}

/// The records of an action, done once.
fn records(action: &Action, line: usize, names: &Names) -> Result<Vec<Record>, Wrong> {
    let byte = |number: u32, what: &str| {
        u8::try_from(number).map_err(|_| Wrong::new(line, format!("found `{number}`, expected {what}'s number, 0 to 255")))
    };
    Ok(match action {
        Action::Feed { channel, words } => {
            let channel = byte(names.channel(line, channel)?, "a channel")?;
            words.iter().map(|word| Record::feed(channel, *word)).collect()
        }
        Action::OfProgram { kind, program } => {
            vec![Record::new(*kind, byte(names.program(line, program)?, "a program")?, 0)]
        }
        Action::OfBoard { kind, board } => vec![Record::new(*kind, byte(*board, "a board")?, 0)],
        Action::Back => vec![Record::back()],
        Action::Raw { kind, a, word } => vec![Record { code: byte(*kind, "a move")?, a: byte(*a, "some")?, word: *word }],
    })
}

fn want(wanted: &Wanted, line: usize, names: &Names) -> Result<Want, Wrong> {
    let there = |number: u32, what: &str, count: usize| match (number as usize) < count {
        true => Ok(number as usize),
        false => Err(Wrong::new(line, format!("found `{number}`, expected the number of a {what}: there are {count}"))),
    };
    Ok(match wanted {
        Wanted::Quiet(quiet) => Want::Quiet(*quiet),
        Wanted::Channel(channel, words) => {
            let channel = there(names.channel(line, channel)?, "channel", names.channels.len())?;
            Want::Channel(channel as u8, words.clone())
        }
        Wanted::Program(program, facts) => {
            let program = there(names.program(line, program)?, "program", names.programs.len())?;
            let place = |fact: &Fact| match fact {
                Fact::At(place) => names.place(line, program, place).map(|place| Fact::At(Ref::Number(place))),
                _ => Ok(fact.clone()),
            };
            Want::Program(program, facts.iter().map(place).collect::<Result<_, _>>()?)
        }
    })
}
