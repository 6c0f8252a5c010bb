//! The words of the fronts: for a record, its answer, an instruction, a process and the whole cabinet; by numbers, or by the names of a file.
use crate::form::names::Names;
use crate::form::print;
use kunzeastylus::{Answer, BusWord, Code, End, Move, Operation, ProcessEnd, Reason, Record, Table};

/// What stands behind the number of a record that a later one takes back.
pub const TAKEN_BACK: char = '~';

/// What is run, in a line.
pub fn heading(records: usize, table: &Table) -> String {
    let processes = many(table.processes.len(), "process", "processes");
    let channels = many(table.channels.len(), "channel", "channels");
    format!("{} on {} boards with {processes} and {channels}", many(records, "record", "records"), table.boards)
}

/// The line of a record: its name, a mark, and both in words.
pub fn line(name: &str, mark: char, record: &str, answer: &str) -> String {
    format!("{name:>5}{mark} {record:<47}  {answer}")
}

/// A record in words, by numbers.
pub fn record(bytes: &[u8], does: impl FnOnce(u8) -> Option<String>) -> String {
    Spoken::NUMBERS.record(bytes, does)
}

/// What a process does next, by numbers.
pub fn next(operation: Option<Operation>) -> String {
    Spoken::NUMBERS.next(operation)
}

/// An answer in words, by numbers.
pub fn answer(answer: Answer, taken: Option<&str>) -> String {
    Spoken::NUMBERS.answer(answer, taken)
}

/// How the parts of a cabinet are spoken of: by the names of the file, where it has them, or by their numbers.
#[derive(Clone, Copy, Debug, Default)]
pub struct Spoken<'n> {
    names: Option<&'n Names>,
}

impl<'n> Spoken<'n> {
    pub const NUMBERS: Spoken<'static> = Spoken { names: None };

    pub fn by(names: &'n Names) -> Spoken<'n> {
        Spoken { names: Some(names) }
    }

    pub fn process(self, p: impl Into<u32>) -> String {
        let p = p.into();
        let name = self.names.and_then(|names| names.programs.get(p as usize));
        name.cloned().unwrap_or_else(|| format!("process {p}"))
    }

    /// A process as it is typed: by its name, or its number alone.
    pub fn typed(self, p: u8) -> String {
        let name = self.names.and_then(|names| names.programs.get(usize::from(p)));
        name.cloned().unwrap_or_else(|| p.to_string())
    }

    pub fn channel(self, k: impl Into<u32>) -> String {
        let k = k.into();
        let name = self.names.and_then(|names| names.channels.get(k as usize));
        name.cloned().unwrap_or_else(|| format!("channel {k}"))
    }

    /// A place of a process, with its label where it has one.
    pub fn place(self, p: usize, place: impl Into<u32>) -> String {
        let place = place.into();
        match self.names.and_then(|names| names.label(p, place)) {
            Some(label) => format!("{label}, place {place}"),
            None => format!("place {place}"),
        }
    }

    /// A record; of a step, what the process does by it, where there is such a process.
    pub fn record(self, bytes: &[u8], does: impl FnOnce(u8) -> Option<String>) -> String {
        let (a, word) = (bytes[1], u32::from_be_bytes([bytes[2], bytes[3], bytes[4], bytes[5]]));
        let with_word = if word == 0 { String::new() } else { format!(", word {word}") };
        match Move::try_from(bytes[0]).ok() {
            Some(Move::Step) => {
                let what = does(a).map(|what| format!(", {what}")).unwrap_or_default();
                format!("step {}{what}{with_word}", self.process(a))
            }
            Some(Move::Sync) => format!("sync {}{with_word}", self.process(a)),
            Some(Move::Carry) => format!("carry board {a}{with_word}"),
            Some(Move::Feed) => format!("feed {}, word {word}", self.channel(a)),
            Some(Move::Crash) => format!("crash board {a}{with_word}"),
            Some(Move::Return) => format!("return board {a}{with_word}"),
            Some(Move::Resync) => format!("resync {}{with_word}", self.process(a)),
            Some(Move::Back) if (a, word) == (0, 0) => "back".to_string(),
            Some(Move::Back) => format!("back, a {a}, word {word}"),
            None => format!("move {}, a {a}, word {word}", bytes[0]),
        }
    }

    /// What a process does next.
    pub fn next(self, operation: Option<Operation>) -> String {
        operation.map_or("halted".to_string(), |operation| self.instruction(operation))
    }

    pub fn instruction(self, operation: Operation) -> String {
        match operation {
            Operation::Set { register, word } => format!("SET register {register} to {word}"),
            Operation::Add { register, other } => format!("ADD register {other} to register {register}"),
            Operation::Take { channel, .. } => format!("TAKE {}", self.channel(channel)),
            Operation::First { mask, .. } if self.names.is_none() => {
                let channels: Vec<String> = channels_of(mask).map(|k| k.to_string()).collect();
                format!("FIRST of channel {}", channels.join(" or "))
            }
            Operation::First { mask, .. } => {
                let channels: Vec<String> = channels_of(mask).map(|k| self.channel(k)).collect();
                format!("FIRST of {}", channels.join(" or "))
            }
            Operation::Send { channel, .. } => format!("SEND {}", self.channel(channel)),
            Operation::Jump { register, place } => format!("JUMP to place {place} by register {register}"),
        }
    }

    /// An instruction of a process as it stands in the file, where that has names; otherwise in words.
    pub fn written(self, p: usize, operation: Operation) -> String {
        match self.names {
            Some(names) => format!("`{}`", print::instruction(operation, p, names)),
            None => self.instruction(operation),
        }
    }

    /// An answer: the words of its reason, and what it names; of a word on the bus also from where it came, and of a back the record that it
    /// took back, by its name.
    pub fn answer(self, answer: Answer, taken: Option<&str>) -> String {
        let Answer { code, a, word, reason, bus } = answer;
        let words = reason.words();
        match code {
            Code::TakenBack => taken.map_or(words.to_string(), |taken| format!("took back record {taken}")),
            _ if code.refused() => format!("refused {}, {words}", code.number()),
            Code::Took | Code::Queued | Code::HeldBack | Code::OnTheBus => {
                let from = bus.map(|on_the_bus| format!(", {}", self.origin(on_the_bus))).unwrap_or_default();
                format!("{words} ({}, word {word}{from})", self.channel(a))
            }
            Code::SyncCarried if reason == Reason::SyncCarried => {
                format!("{words} ({}, {} dropped)", self.process(a), many(word as usize, "word", "words"))
            }
            Code::SyncCarried | Code::SyncUnbacked => format!("{words} ({})", self.process(a)),
            _ => words.to_string(),
        }
    }

    /// The same with what the record says of it: which of a return and a resync was done, and of an instruction that was done its register,
    /// whether it jumped, and what it added up to. `registers` are those before it.
    pub fn outcome(self, record: Record, answer: Answer, done: Option<(Operation, [u32; 4])>) -> String {
        let words = self.answer(answer, None);
        if answer.reason == Reason::ReturnedOrResync {
            let which = if record.kind() == Some(Move::Return) { "board returned" } else { "resync issued" };
            return format!("done: {which}");
        }
        match done {
            Some((operation, registers)) if !answer.code.refused() => format!("{words}{}", effect(operation, registers)),
            _ => words,
        }
    }

    /// From where a word on the bus came: the process whose SEND it was, and at which place.
    fn origin(self, on_the_bus: BusWord) -> String {
        match on_the_bus.sender {
            End::Outside => "from outside".to_string(),
            End::Process(p) => format!("from {}, place {}", self.process(p), on_the_bus.place),
        }
    }

    /// Where a process runs and stands.
    pub fn stands(self, p: usize, end: ProcessEnd, next: Option<Operation>) -> String {
        let ProcessEnd { board, place, unread, hold_back, registers: [r0, r1, r2, r3] } = end;
        let at = next.map_or("halted".to_string(), |operation| format!("next is {}", self.instruction(operation)));
        let unread = many(unread.into(), "word", "words");
        let (who, held) = (self.process(p as u32), holds(hold_back.into()));
        format!("{who} runs on board {board}, at place {place}, {at}; {unread} unread; {held}; registers {r0} {r1} {r2} {r3}")
    }
}

/// What an instruction that was done did to registers and place, behind the words of its answer.
fn effect(operation: Operation, registers: [u32; 4]) -> String {
    match operation {
        Operation::Set { .. } => String::new(),
        Operation::Add { register, other } => {
            let sum = registers[register as usize].wrapping_add(registers[other as usize]);
            format!(", register {register} is {sum}")
        }
        Operation::Take { register, .. } => format!(" into register {register}"),
        Operation::First { register, .. } => format!(" into register {register}, its channel into register {}", register + 1),
        Operation::Send { register, .. } => format!(" from register {register}"),
        Operation::Jump { register, place } => match registers[register as usize] {
            0 => format!(", no jump: register {register} is 0"),
            _ => format!(", jumped to place {place}"),
        },
    }
}

/// The channels of a FIRST's mask.
pub fn channels_of(mask: u32) -> impl Iterator<Item = u8> {
    (0..32).filter(move |k| mask >> k & 1 == 1)
}

/// What a process holds back.
pub fn holds(hold_back: u32) -> String {
    match hold_back {
        0 => "holds nothing back".to_string(),
        1 => "holds back its next send, which was on the bus before the crash".to_string(),
        n => format!("holds back its next {n} sends, which were on the bus before the crash"),
    }
}

/// Several things in a row.
pub fn list(things: &[String]) -> String {
    match things {
        [] => "nothing".to_string(),
        [one] => one.clone(),
        [most @ .., last] => format!("{} and {last}", most.join(", ")),
    }
}

/// How many of something.
pub fn many(count: usize, one: &str, several: &str) -> String {
    match count {
        0 => format!("no {several}"),
        1 => format!("1 {one}"),
        _ => format!("{count} {several}"),
    }
}

/// Where a process runs and stands, by numbers.
pub fn process(p: usize, end: ProcessEnd, next: Option<Operation>) -> String {
    Spoken::NUMBERS.stands(p, end, next)
}

/// Whether the cabinet is quiet, in words.
pub fn quiet(quiet: bool) -> &'static str {
    match quiet {
        true => "quiet: no queue has an entry, and each process has halted or waits for a word",
        false => "not quiet: a queue has an entry, or a process could go on",
    }
}
