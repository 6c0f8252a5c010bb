//! The stepper's words: by the names of the cabinet, so that what is shown can be typed, and as it stands in a schedule that is saved.
use super::{Last, Sheet, Stepper};
use crate::form::names::Names;
use crate::form::print;
use crate::output::Style;
use crate::words::{many, Spoken};
use kunzeastylus::{Answer, BackupState, BackupView, BusWord, End, Entry, Operation, Record, Table};

/// A table and its names.
#[derive(Clone, Copy)]
pub struct Said<'s> {
    pub table: &'s Table,
    pub names: &'s Names,
    /// So much of a list is said, and of the rest how much it is.
    pub most: usize,
}

impl Stepper {
    pub(super) fn said(&self) -> Said<'_> {
        Said { table: &self.table, names: &self.names, most: usize::MAX }
    }

    /// What it is drawn on.
    pub fn sheet(&self, style: Style) -> Sheet<'_> {
        Sheet { said: self.said(), style }
    }
}

impl Said<'_> {
    /// A record; of a step, the instruction that it finds.
    pub fn record(&self, record: Record, found: Option<Operation>) -> String {
        let what = found.map(|operation| format!(": {}", print::instruction(operation, record.a.into(), self.names)));
        format!("{}{}", print::record(record, self.names), what.unwrap_or_default())
    }

    /// A word of a channel.
    pub fn word(&self, channel: impl Into<u32>, word: u32) -> String {
        format!("{} {word}", self.names.channel_name(channel))
    }

    /// An answer with its reason and what it names.
    pub fn answer(&self, answer: Answer) -> String {
        Spoken::by(self.names).answer(answer, None)
    }

    /// The same of the last record, with what it did to registers and place, or which record it took back.
    pub fn outcome(&self, last: &Last) -> String {
        let spoken = Spoken::by(self.names);
        match &last.taken {
            Some(taken) => spoken.answer(last.answer, Some(taken)),
            None => spoken.outcome(last.record, last.answer, last.found.map(|(operation, spot)| (operation, spot.registers))),
        }
    }

    /// Whose SEND a word on the bus was, and at which place; none where it was fed.
    fn sender(&self, word: &BusWord) -> Option<String> {
        match word.sender {
            End::Outside => None,
            End::Process(p) => Some(format!("{}, place {}", self.names.program_name(p), word.place)),
        }
    }

    /// A word on the bus, and from where it came.
    pub fn on_the_bus(&self, word: &BusWord) -> String {
        let from = self.sender(word).unwrap_or("fed".to_string());
        format!("{} ({from})", self.word(word.channel, word.word))
    }

    /// An entry of a queue.
    pub fn entry(&self, entry: Entry) -> String {
        match entry {
            Entry::Word { channel, word, place } => {
                let sender = match self.table.channels[channel as usize].0 {
                    End::Outside => String::new(),
                    End::Process(p) => format!("{}, ", self.names.program_name(p)),
                };
                format!("{} ({sender}place {place})", self.word(channel, word))
            }
            Entry::Sync { process, place, registers, takes } => {
                let taken = takes.iter().sum::<u32>() as usize;
                let state = format!("place {place}, {}, {} taken", registers_in_words(registers), many(taken, "word", "words"));
                format!("sync of {} ({state})", self.names.program_name(process))
            }
            Entry::Resync { process } => format!("resync of {}", self.names.program_name(process)),
        }
    }

    /// The backup of process `p`.
    pub fn backup(&self, p: usize, backup: &BackupView) -> String {
        let what = match backup.state() {
            BackupState::None => return "no backup".to_string(),
            BackupState::Complete => "backup",
            BackupState::Making => "backup being made",
        };
        let saved = self.list(backup.words().iter().map(|saved| self.word(self.slot(p, saved.slot), saved.word)), "nothing");
        let state = format!("place {}, {}", backup.place, registers_in_words(backup.registers));
        let carried = many(backup.count as usize, "word", "words");
        format!("{what} on board {}: {state}; {carried} carried since; saved {saved}", backup.board)
    }

    /// A list, as much of it as is said.
    pub fn list(&self, all: impl ExactSizeIterator<Item = String>, none: &str) -> String {
        let more = all.len().saturating_sub(self.most);
        let said: Vec<String> = all.take(self.most).collect();
        match (said.len(), more) {
            (0, 0) => none.to_string(),
            (_, 0) => said.join(", "),
            _ => format!("{} and {more} more", said.join(", ")),
        }
    }

    /// The channel of a slot: those that a process reads are its slots, in ascending order.
    fn slot(&self, p: usize, slot: u32) -> u32 {
        let read = |k: &usize| self.table.channels[*k].1 == End::Process(p as u8);
        (0..self.table.channels.len()).filter(read).nth(slot as usize).expect("a slot of the process") as u32
    }
}

fn registers_in_words(registers: [u32; 4]) -> String {
    let registers: Vec<String> = registers.iter().enumerate().map(|(i, word)| format!("r{i} {word}")).collect();
    registers.join(" ")
}
