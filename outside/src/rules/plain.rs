//! The plain cabinet, and demand 3 as a test of one run: the run's bus order is that of a plain run, and a quiet end is its end. Equal means that
//! channel, word, sender and place agree (W-212).
//!
//! What a step of the plain cabinet does depends on the order of words in the process's inbox and never on when it is made. So if any
//! plain run has a given bus order, then this one has: feeds as they come, each process stepped only when a word of it is due.
use super::answer::{Answer, Origin};
use super::reader::{Instruction, Record, Table, OUTSIDE};
use super::session::standing_of;
use super::simulator::Cabinet;
use std::collections::VecDeque;

/// More steps than a process can make in a schedule.
const ENOUGH: u32 = 10_001;

#[derive(Clone, Debug, Default)]
struct Process {
    registers: [u32; 4],
    place: usize,
    /// Channels with words.
    inbox: VecDeque<(u8, u32)>,
}

/// A word on the bus: "channel and word", and W-212, "the place of its SEND and the sender".
#[derive(Clone, Copy, Debug, PartialEq, Eq)]
struct BusWord {
    channel: u8,
    word: u32,
    sender: u8,
    place: u8,
}

impl BusWord {
    /// The word that a record with this answer put on the bus.
    fn shown(answer: &Answer) -> BusWord {
        let Origin { sender, place } = answer.origin;
        BusWord { channel: answer.a, word: answer.word, sender, place }
    }
}

pub struct Plain<'t> {
    table: &'t Table,
    processes: Vec<Process>,
    bus: Vec<BusWord>,
}

impl<'t> Plain<'t> {
    pub fn new(table: &'t Table) -> Plain<'t> {
        Plain { table, processes: vec![Process::default(); table.processes.len()], bus: Vec::new() }
    }

    /// "channel and word go to the end of the reader's inbox and of the bus order"; false where refused.
    pub fn feed(&mut self, channel: u8, word: u32) -> bool {
        match self.table.channels.get(channel as usize) {
            Some(ends) if ends.sender == OUTSIDE => {
                self.send(BusWord { channel, word, sender: OUTSIDE, place: 0 });
                true
            }
            _ => false,
        }
    }

    fn send(&mut self, sent: BusWord) {
        self.bus.push(sent);
        if let Some(reader) = self.processes.get_mut(self.table.channels[sent.channel as usize].reader as usize) {
            reader.inbox.push_back((sent.channel, sent.word));
        }
    }

    /// "the instruction at its place, as listed above"; false where refused.
    pub fn step(&mut self, p: usize) -> bool {
        let process = &mut self.processes[p];
        let Some(&instruction) = self.table.processes[p].program.get(process.place) else { return false };
        let registers = &mut process.registers;
        let mut next = process.place + 1;
        match instruction {
            Instruction::Set { a, word } => registers[a as usize] = word,
            Instruction::Add { a, b } => registers[a as usize] = registers[a as usize].wrapping_add(registers[b as usize]),
            Instruction::Take { a, channel } => {
                let Some(at) = process.inbox.iter().position(|&(k, _)| k == channel) else { return false };
                registers[a as usize] = process.inbox.remove(at).unwrap().1;
            }
            Instruction::First { a, mask } => {
                let Some(at) = process.inbox.iter().position(|&(k, _)| mask & 1 << k != 0) else { return false };
                let (channel, word) = process.inbox.remove(at).unwrap();
                registers[a as usize] = word;
                registers[a as usize + 1] = channel as u32;
            }
            Instruction::Send { a, channel } => {
                // W-212: "the plain cabinet lists them": the process that steps, and where its SEND stands.
                let (word, place) = (registers[a as usize], process.place as u8);
                self.send(BusWord { channel, word, sender: p as u8, place });
            }
            Instruction::Jump { a, place } => {
                if registers[a as usize] != 0 {
                    next = place as usize;
                }
            }
        }
        self.processes[p].place = next;
        true
    }

    /// Steps a process until a word of it is on the bus.
    fn step_to_send(&mut self, p: usize) -> bool {
        let before = self.bus.len();
        (0..ENOUGH).any(|_| !self.step(p) || self.bus.len() > before) && self.bus.len() > before
    }

    /// Steps every process until each is refused; the bus order may not grow any more.
    fn step_to_rest(&mut self) -> bool {
        let before = self.bus.len();
        (0..self.processes.len()).all(|p| (0..ENOUGH).any(|_| !self.step(p))) && self.bus.len() == before
    }
}

/// Demand 3 for one run: its records with their answers, and the cabinet after the last of them. What counts are the records that stand (W-214):
/// where nothing is taken back, all of them.
pub fn transparent(table: &Table, run: &[(Record, Answer)], end: &Cabinet) -> Result<(), String> {
    let mut plain = Plain::new(table);
    let standing = standing_of(run).into_iter().map(|i| (i, run[i]));
    for (i, (record, answer)) in standing.filter(|(_, (_, answer))| answer.code == 4) {
        let fault = |what: &str| Err(format!("record {}: {what}", i + 1));
        if record.kind == 4 {
            if !plain.feed(record.a, record.word) {
                return fault("a feed is refused by the plain cabinet");
            }
        } else {
            let sender = table.channels[answer.a as usize].sender as usize;
            if !plain.step_to_send(sender) {
                return fault("the plain cabinet sends no word");
            }
        }
        if plain.bus.last() != Some(&BusWord::shown(&answer)) {
            return fault("another word, or one from elsewhere, is on the plain cabinet's bus");
        }
    }
    if !end.quiet() {
        return Ok(());
    }
    if !plain.step_to_rest() {
        return Err("the plain cabinet goes on where the run is quiet".to_string());
    }
    for (p, (ours, theirs)) in end.processes.iter().zip(&plain.processes).enumerate() {
        let inbox: VecDeque<(u8, u32)> = ours.inbox.iter().map(|message| (message.channel, message.word)).collect();
        if (ours.place as usize, ours.registers, inbox) != (theirs.place, theirs.registers, theirs.inbox.clone()) {
            return Err(format!("process {p} ends elsewhere: {ours:?}, plain {theirs:?}"));
        }
    }
    Ok(())
}
