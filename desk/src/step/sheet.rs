//! The parts of a drawing, in words and colours: the last record, a panel for each process with its facts and its program, and the rest of the
//! cabinet. A `*` is at what is not as it was when it was last drawn.
use super::say::Said;
use super::shown::{Last, Shown};
use crate::form::print;
use crate::output::{Colour, Style};
use crate::words::many;
use kunzeastylus::{BusWord, Move, Record, LIMIT, QUEUE_MOST};

/// How many words on the bus are shown each time; all of them are where they are asked for.
const BUS_SHOWN: usize = 6;

/// A process with a backup owes a sync after so many instructions.
const INSTRUCTIONS_MOST: usize = 64;

/// From so many words on, unread and in queues, a channel is held.
const HELD_FROM: usize = 8;

/// What a drawing needs besides what there is to see.
#[derive(Clone, Copy)]
pub struct Sheet<'s> {
    pub said: Said<'s>,
    pub style: Style,
}

/// A process: its facts, its program with its place, and all of it in a line.
pub(super) struct Panel {
    pub facts: Vec<String>,
    pub program: Vec<String>,
    pub place: usize,
    pub short: String,
    /// Something of it changed, or the last record was of it.
    pub busy: bool,
}

impl Sheet<'_> {
    /// Text in a colour, word by word, so that a line can be folded anywhere.
    fn paint(&self, colour: Colour, text: &str) -> String {
        let one = |word: &str| if word.is_empty() { String::new() } else { self.style.paint(colour, word) };
        text.split(' ').map(one).collect::<Vec<_>>().join(" ")
    }

    /// The mark of what changed, before it.
    fn mark(&self, changed: bool) -> String {
        if changed {
            self.paint(Colour::Yellow, "*")
        } else {
            " ".to_string()
        }
    }

    /// The last record and its answer, and what is to be said besides.
    pub(super) fn last(&self, last: &Last) -> Vec<String> {
        let answer = self.said.outcome(last);
        let colour = if last.answer.code.refused() { Colour::Red } else { Colour::Green };
        let record = self.said.record(last.record, last.found.map(|(operation, _)| operation));
        let line = format!("{:>5}  {record:<38}  {}", last.name, self.paint(colour, &answer));
        std::iter::once(line).chain(last.besides.iter().map(|what| format!("       {what}"))).collect()
    }

    pub(super) fn panels(&self, shown: &Shown, before: Option<&Shown>) -> Vec<Panel> {
        (0..shown.cabinet.processes().len()).map(|p| self.panel(p, shown, before)).collect()
    }

    fn panel(&self, p: usize, shown: &Shown, before: Option<&Shown>) -> Panel {
        let process = &shown.cabinet.processes()[p];
        let was = before.map(|before| &before.cabinet.processes()[p]);
        let changed = was.is_some_and(|was| was != process);
        let mark = self.mark(changed);
        let stands = format!("{} on board {}, at place {}", self.said.names.program_name(p as u32), process.board, process.place);
        let held = match process.hold_back {
            0 => String::new(),
            n => format!("; holds back {}, on the bus before the crash", many(n as usize, "send", "sends")),
        };
        let limit = self.said.table.processes[p].limit.unwrap_or(LIMIT);
        let owed = format!("acts {} of {limit}, instructions {} of {INSTRUCTIONS_MOST}", process.acts, process.instructions);
        let inbox = self.said.list(process.inbox().iter().map(|unread| self.said.word(unread.channel, unread.word)), "empty");
        let would = shown.would[p].map_or("a run has no room for it".to_string(), |answer| self.said.answer(answer));
        let facts = vec![
            format!("{mark} {stands}{held}"),
            format!("    {}; {owed}", self.registers(process.registers, was.map(|was| was.registers))),
            format!("    inbox: {inbox}"),
            format!("    {}", self.said.backup(p, &process.backup)),
            format!("    a step would answer: {would}"),
        ];
        let place = process.place as usize;
        let short = format!("{mark} {stands}; a step: {would}");
        Panel { facts, program: self.program(p, place), place, short, busy: changed || is_of(shown, p) }
    }

    fn registers(&self, registers: [u32; 4], were: Option<[u32; 4]>) -> String {
        let one = |i: usize| match were.is_some_and(|were| were[i] != registers[i]) {
            true => format!("r{i} {}", self.paint(Colour::Yellow, &format!("{}*", registers[i]))),
            false => format!("r{i} {}", registers[i]),
        };
        [0, 1, 2, 3].map(one).join(" ")
    }

    /// The instructions with their places and labels; the place where the process stands is marked, also behind the last.
    pub(super) fn program(&self, p: usize, place: usize) -> Vec<String> {
        let program = &self.said.table.processes[p].program;
        let labels = &self.said.names.labels[p];
        let label = |i: usize| -> String {
            labels.iter().filter(|(_, at)| *at as usize == i).map(|(name, _)| format!("{name}: ")).collect()
        };
        let labels_wide = (0..=program.len()).map(|i| label(i).chars().count()).max().unwrap_or(0);
        let line = |i: usize| {
            let what = program.get(i).map(|operation| print::instruction(*operation, p, self.said.names));
            let line = format!("{i:>2} {:<labels_wide$}{}", label(i), what.unwrap_or("halted".to_string()));
            match i == place {
                true => self.paint(Colour::Green, &format!("> {line}")),
                false => format!("  {line}"),
            }
        };
        (0..program.len().max(place + 1)).map(line).collect()
    }

    /// Boards and their queues, totals, the bus, whether it is quiet, and what comes next.
    pub(super) fn rest(&self, shown: &Shown, before: Option<&Shown>) -> Vec<String> {
        let mut lines = self.boards(shown, before);
        let totals = shown.cabinet.totals().iter().enumerate();
        let totals: Vec<String> = totals.map(|(k, total)| self.said.word(k as u32, *total)).collect();
        lines.push(format!("  totals ({HELD_FROM} hold a channel): {}", totals.join(", ")));
        lines.push(format!("  on the bus: {}", self.last_words(&shown.bus)));
        if shown.quiet {
            lines.push("  quiet: no queue has an entry, and each process has halted or waits for a word".to_string());
        }
        lines.push(match shown.coming {
            Some((number, record, found)) => format!("  next is record {number}: {}", self.said.record(record, found)),
            None => "  the file has no further record".to_string(),
        });
        lines
    }

    /// A line for each board that is dead or has something in its queue, and one for the others.
    fn boards(&self, shown: &Shown, before: Option<&Shown>) -> Vec<String> {
        let (mut lines, mut idle) = (Vec::new(), Vec::new());
        for (b, board) in shown.cabinet.boards().iter().enumerate() {
            let mark = self.mark(before.is_some_and(|before| before.cabinet.boards()[b] != *board));
            let queue = self.said.list(board.queue().map(|entry| self.said.entry(entry)), "nothing");
            match (board.is_dead(), board.queue().len()) {
                (true, _) => lines.push(format!("{mark} board {b} {}", self.paint(Colour::Red, "is dead"))),
                (false, 0) => idle.push(format!("{}board {b}", mark.trim_start())),
                (false, n) => lines.push(format!("{mark} board {b}, {n} of {QUEUE_MOST} in its queue: {queue}")),
            }
        }
        if !idle.is_empty() {
            lines.push(format!("  nothing in the queue of {}", idle.join(", ")));
        }
        lines
    }

    /// The last words on the bus, and how many there are where that is more.
    fn last_words(&self, bus: &[BusWord]) -> String {
        let most = BUS_SHOWN.min(self.said.most);
        let last = &bus[bus.len().saturating_sub(most)..];
        let words: Vec<String> = last.iter().map(|word| self.said.on_the_bus(word)).collect();
        match bus.len() {
            0 => "nothing".to_string(),
            n if n > most => format!("{n} words, the last {}", words.join(", ")),
            _ => words.join(", "),
        }
    }
}

/// Whether the last record was of this process.
fn is_of(shown: &Shown, p: usize) -> bool {
    let of_process =
        |record: Record| matches!(record.kind(), Some(Move::Step | Move::Sync | Move::Resync)) && usize::from(record.a) == p;
    shown.last.as_ref().is_some_and(|last| of_process(last.record))
}
