//! What a line asks for. A line that begins with a word of the form is a line of a schedule: it is done at once.
use crate::form::answers::Outcome;
use crate::form::assemble::{plan, Step};
use crate::form::keywords::MOVES;
use crate::form::names::Names;
use crate::form::parser::parse as parse_form;
use kunzeastylus::{Answer, Code, Move, Record};

/// What a stepper does.
#[derive(Clone, Debug, PartialEq, Eq)]
pub enum Command {
    /// The file's next record.
    Next,
    /// A move 8.
    Back,
    /// To a record of the file, by its number; 0 is the start.
    Go(usize),
    /// On to the file's next record of some kind.
    Run(Where),
    /// A line of a schedule, which is not the file's.
    Give(Step),
}

/// Where a run stops.
#[derive(Clone, Copy, Debug, PartialEq, Eq)]
pub enum Where {
    /// At the file's end.
    End,
    /// At a crash, done or refused.
    Crash,
    /// At an answer of a kind.
    Answer(Outcome),
    /// At a word on the bus, of this channel.
    Channel(u8),
    /// At a step, sync or resync of this process.
    Process(u8),
}

impl Where {
    /// Whether a record with this answer is such a one.
    pub fn is(self, record: Record, answer: Answer) -> bool {
        match self {
            Where::End => false,
            Where::Crash => record.kind() == Some(Move::Crash),
            Where::Answer(outcome) => outcome.is(answer),
            Where::Channel(channel) => answer.code == Code::OnTheBus && answer.a == channel,
            Where::Process(process) => {
                matches!(record.kind(), Some(Move::Step | Move::Sync | Move::Resync)) && record.a == process
            }
        }
    }

    /// What it is called where there is none.
    pub fn called(self, names: &Names) -> String {
        match self {
            Where::End => "end".to_string(),
            Where::Crash => "crash".to_string(),
            Where::Answer(Outcome::Refused) => "refusal".to_string(),
            Where::Answer(Outcome::Code(code)) => format!("answer {}", code.number()),
            Where::Channel(channel) => format!("word on {}", names.channel_name(channel)),
            Where::Process(process) => format!("record of {}", names.program_name(process)),
        }
    }
}

/// A line that was typed.
#[derive(Clone, Debug, PartialEq, Eq)]
pub enum Line {
    Do(Command),
    /// The last command once more.
    Again,
    /// All there is to see, again.
    Show,
    /// Every word on the bus so far.
    Bus,
    /// A whole program, or all of them.
    List(Option<u8>),
    /// What was done, as a schedule in words in this file.
    Save(String),
    Help,
    Quit,
}

/// What a line asks for, or what is wrong with it.
pub fn parse(line: &str, names: &Names) -> Result<Line, String> {
    let words: Vec<&str> = line.split_whitespace().collect();
    Ok(match words[..] {
        [] => Line::Again,
        ["next" | "n"] => Line::Do(Command::Next),
        ["back" | "b"] => Line::Do(Command::Back),
        ["go" | "g", to] => Line::Do(Command::Go(number(to)?)),
        ["run" | "r"] => Line::Do(Command::Run(Where::End)),
        ["run" | "r", ref to @ ..] => Line::Do(Command::Run(place(to, names)?)),
        ["show" | "s"] => Line::Show,
        ["bus" | "w"] => Line::Bus,
        ["list" | "l"] => Line::List(None),
        ["list" | "l", program] => Line::List(Some(of(program, &names.programs).ok_or_else(|| none(program, &names.programs))?)),
        ["save", ..] if words.len() > 1 => Line::Save(line.trim_start()[4..].trim().to_string()),
        ["help" | "h" | "?"] => Line::Help,
        ["quit" | "q"] => Line::Quit,
        [first, ..] if MOVES.contains(&first) => Line::Do(Command::Give(typed(line, names)?)),
        ["go" | "g", ..] => return Err("go: a record's number is wanted".to_string()),
        ["save"] => return Err("save: a file is wanted".to_string()),
        ["next" | "n" | "back" | "b" | "show" | "s" | "bus" | "w" | "list" | "l" | "help" | "h" | "?" | "quit" | "q", ..] => {
            return Err(format!("{}: so much is not wanted behind it; h says what is", words[0]))
        }
        [first, ..] => return Err(format!("{first}: no such command; h says which there are")),
    })
}

/// A record's number.
fn number(text: &str) -> Result<usize, String> {
    crate::args::decimal(text).ok_or_else(|| format!("{text}: a record's number is wanted"))
}

/// Where a run is to stop: by a word of its own, by what is named, or by an answer.
fn place(to: &[&str], names: &Names) -> Result<Where, String> {
    let channel = |name: &str| of(name, &names.channels).map(Where::Channel);
    let process = |name: &str| of(name, &names.programs).map(Where::Process);
    let answer = |name: &str| {
        let numbered = || crate::args::decimal(name).and_then(|n| Outcome::numbered(u32::try_from(n).ok()?));
        Outcome::named(name).or_else(numbered).map(Where::Answer)
    };
    match *to {
        ["crash"] => Ok(Where::Crash),
        ["channel", name] => channel(name).ok_or_else(|| none(name, &names.channels)),
        ["program" | "process", name] => process(name).ok_or_else(|| none(name, &names.programs)),
        ["answer", name] => answer(name).ok_or_else(|| format!("{name}: no answer has this name or code (docs/NUMBERS.md)")),
        [name] if crate::args::decimal(name).is_some() => {
            Err(format!("{name}: say of what, as in `run answer {name}`, `run channel {name}` or `run program {name}`"))
        }
        [name] => channel(name).or_else(|| process(name)).or_else(|| answer(name)).ok_or_else(|| {
            let there: Vec<&str> = names.channels.iter().chain(&names.programs).map(String::as_str).collect();
            format!("{name}: no place to run to: there are crash, refused, an answer's name, {}", there.join(", "))
        }),
        _ => Err("run: one place to run to is wanted; h says which there are".to_string()),
    }
}

/// The number of something that is there, by its name or its number.
fn of(name: &str, names: &[String]) -> Option<u8> {
    let named = names.iter().position(|other| other == name);
    named.or_else(|| crate::args::decimal(name).filter(|n| *n < names.len())).and_then(|n| u8::try_from(n).ok())
}

fn none(name: &str, names: &[String]) -> String {
    format!("{name}: there is no such one, but {}", names.join(", "))
}

/// A line of a schedule. Whether there is such a board is the library's to say.
fn typed(line: &str, names: &Names) -> Result<Step, String> {
    let (text, mut wrong) = parse_form(&format!("schedule\n{line}"));
    let statements = text.schedule.map_or(Vec::new(), |at| at.it);
    let step = plan(&statements, names, &mut wrong).pop();
    match wrong.first() {
        Some(wrong) => Err(wrong.what.clone()),
        None => step.map(|at| at.it).ok_or("a move is wanted".to_string()),
    }
}
