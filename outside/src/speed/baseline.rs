//! The bench once more in Rust, with growing lists and nothing proved, written to be quick: what the proved run's time is held against.
//! It reads the same bytes and writes the same answers, reasons, report and origins into lent buffers; a channel's total of unread and queued
//! words is kept.
use outside::rules::lent::Lent;
use outside::rules::reader::{judge_run, Instruction, Table, OUTSIDE};
use std::collections::VecDeque;

/// An answer's code times 4: what a cause is added to, for the list of reasons.
const fn code(code: u8) -> u8 {
    4 * code
}

/// "at most 32 entries", "8 or more together", "64 instructions done"
const QUEUE: usize = 32;
const HELD: u8 = 8;
const INSTRUCTIONS: u32 = 64;

#[derive(Clone, Copy)]
struct Message {
    word: u32,
    channel: u8,
    slot: u8,
}

#[derive(Clone, Copy)]
struct Snapshot {
    registers: [u32; 4],
    taken: [u8; 4],
    place: u8,
}

enum Entry {
    Word { channel: u8, place: u8, word: u32 },
    Sync { process: u8, snapshot: Snapshot },
    Resync { process: u8 },
}

/// A backup record; not yet complete while the resync that brings it waits.
struct Backup {
    complete: bool,
    saved: Vec<Message>,
    registers: [u32; 4],
    board: u8,
    place: u8,
    count: u8,
}

impl Backup {
    /// How many words it drops.
    fn sync(&mut self, snapshot: &Snapshot) -> u32 {
        let mut left = snapshot.taken;
        let mut all: usize = left.iter().map(|&n| n as usize).sum();
        let dropped = all as u32;
        // Only as far as the last word to be dropped; what stays before it moves up to it.
        let (mut at, mut kept) = (0, 0);
        while all > 0 {
            let message = self.saved[at];
            let of = &mut left[message.slot as usize];
            if *of > 0 {
                *of -= 1;
                all -= 1;
            } else {
                self.saved[kept] = message;
                kept += 1;
            }
            at += 1;
        }
        self.saved.drain(kept..at);
        self.registers = snapshot.registers;
        self.place = snapshot.place;
        self.count = 0;
        dropped
    }
}

struct Process<'t> {
    program: &'t [Instruction],
    inbox: VecDeque<Message>,
    registers: [u32; 4],
    taken: [u8; 4],
    /// Its two boards in the table.
    homes: [u8; 2],
    board: u8,
    place: u8,
    hold_back: u8,
    /// How many acts ask for a sync.
    limit: u8,
    acts: u8,
    /// Those done since the last sync was issued, as the acts are.
    instructions: u32,
    waiting: bool,
    backup: Option<Backup>,
}

impl Process<'_> {
    /// Its backup record, if it has one.
    fn backed(&mut self) -> Option<&mut Backup> {
        self.backup.as_mut().filter(|backup| backup.complete)
    }

    fn other_board(&self) -> u8 {
        self.homes[(self.board == self.homes[0]) as usize]
    }

    fn arrive(&mut self, message: Message) {
        self.inbox.push_back(message);
        if let Some(backup) = &mut self.backup {
            backup.saved.push(message);
        }
    }

    /// What a TAKE, a FIRST or a SEND asks.
    fn must_not_sync(&self) -> Result<(), u8> {
        if self.acts >= self.limit && self.backup.is_some() {
            return Err(code(37));
        }
        self.ran_long()
    }

    /// What a SET, an ADD or a JUMP asks.
    fn ran_long(&self) -> Result<(), u8> {
        if self.instructions >= INSTRUCTIONS && self.backup.is_some() {
            return Err(code(37) + 1);
        }
        Ok(())
    }

    fn oldest(&self, mask: u32) -> Option<usize> {
        self.inbox.iter().position(|message| mask >> message.channel & 1 == 1)
    }

    /// Removes the oldest unread word on one of these channels, or gives the refusal, which is `none` where there is no such word.
    fn take(&mut self, mask: u32, none: u8) -> Result<Message, u8> {
        let at = self.oldest(mask).ok_or(none)?;
        self.must_not_sync()?;
        let message = if at == 0 { self.inbox.pop_front() } else { self.inbox.remove(at) }.ok_or(none)?;
        self.taken[message.slot as usize] = self.taken[message.slot as usize].wrapping_add(1);
        self.act();
        Ok(message)
    }

    /// One act more. Without a backup nobody asks for acts or takes, so that they may go round.
    fn act(&mut self) {
        self.acts = self.acts.wrapping_add(1);
    }

    fn at_rest(&self) -> bool {
        match self.program.get(self.place as usize) {
            None => true,
            Some(&Instruction::Take { channel, .. }) => self.oldest(1 << channel).is_none(),
            Some(&Instruction::First { mask, .. }) => self.oldest(mask).is_none(),
            Some(_) => false,
        }
    }
}

#[derive(Clone, Copy)]
struct Channel {
    sender: u8,
    reader: u8,
    slot: u8,
    /// Unread and queued words together.
    total: u8,
}

impl Channel {
    fn held(self) -> bool {
        self.total >= HELD && self.reader != OUTSIDE
    }
}

/// An answer's reason, which has its code, a and word, or a refusal's reason.
type Answer = Result<(u8, u8, u32), u8>;

/// The sender and the place of a record's word. Most records have none, so that all are filled at once, and a word on the bus writes its own.
type Origin = [u8; 2];
const NOWHERE: u8 = 255;

fn done(cause: u8) -> Answer {
    Ok((cause, 0, 0))
}

struct Cabinet<'t> {
    channels: Vec<Channel>,
    processes: Vec<Process<'t>>,
    queues: Vec<VecDeque<Entry>>,
    dead: Vec<bool>,
}

impl<'t> Cabinet<'t> {
    fn new(table: &'t Table) -> Cabinet<'t> {
        let slot = |k: usize| table.channels[..k].iter().filter(|ends| ends.reader == table.channels[k].reader).count() as u8;
        let channel = |(k, ends): (usize, &outside::rules::reader::Channel)| Channel {
            sender: ends.sender,
            reader: ends.reader,
            slot: slot(k),
            total: 0,
        };
        let process = |given: &'t outside::rules::reader::Process| Process {
            program: &given.program,
            inbox: VecDeque::new(),
            registers: [0; 4],
            taken: [0; 4],
            homes: [given.primary, given.backup],
            board: given.primary,
            place: 0,
            hold_back: 0,
            limit: given.limit,
            acts: 0,
            instructions: 0,
            waiting: false,
            backup: Some(Backup {
                complete: true,
                saved: Vec::new(),
                registers: [0; 4],
                board: given.backup,
                place: 0,
                count: 0,
            }),
        };
        Cabinet {
            channels: table.channels.iter().enumerate().map(channel).collect(),
            processes: table.processes.iter().map(process).collect(),
            queues: (0..table.boards).map(|_| VecDeque::new()).collect(),
            dead: vec![false; table.boards as usize],
        }
    }

    fn answer(&mut self, kind: u8, a: usize, word: u32, origin: &mut Origin) -> Answer {
        if kind == 4 {
            return if a < self.channels.len() { self.feed(a, word, origin) } else { Err(code(33) + 2) };
        }
        if !(1..=7).contains(&kind) {
            return Err(code(32));
        }
        if word != 0 {
            return Err(code(32) + 1);
        }
        match kind {
            1 if a < self.processes.len() => self.step(a),
            2 if a < self.processes.len() => self.sync(a),
            3 if a < self.queues.len() => self.carry(a, origin),
            1 | 2 => Err(code(33)),
            3 => Err(code(33) + 1),
            _ => self.repair(kind, a),
        }
    }

    /// Moves 5 to 7.
    fn repair(&mut self, kind: u8, a: usize) -> Answer {
        match kind {
            5 if a < self.queues.len() => self.crash(a),
            6 if a < self.queues.len() => self.give_back(a),
            7 if a < self.processes.len() => self.resync(a),
            7 => Err(code(33)),
            _ => Err(code(33) + 1),
        }
    }

    fn step(&mut self, p: usize) -> Answer {
        let process = &mut self.processes[p];
        let Some(&instruction) = process.program.get(process.place as usize) else { return Err(code(35)) };
        let answer = match instruction {
            Instruction::Set { a, word } => {
                process.ran_long()?;
                process.registers[a as usize] = word;
                (0, 0, 0)
            }
            Instruction::Add { a, b } => {
                process.ran_long()?;
                process.registers[a as usize] = process.registers[a as usize].wrapping_add(process.registers[b as usize]);
                (0, 0, 0)
            }
            Instruction::Take { a, channel } => {
                let message = process.take(1 << channel, code(36))?;
                process.registers[a as usize] = message.word;
                self.channels[channel as usize].total -= 1;
                (code(1), channel, message.word)
            }
            Instruction::First { a, mask } => {
                let message = process.take(mask, code(36) + 1)?;
                process.registers[a as usize] = message.word;
                process.registers[a as usize + 1] = message.channel as u32;
                self.channels[message.channel as usize].total -= 1;
                (code(1), message.channel, message.word)
            }
            Instruction::Send { a, channel } => {
                let word = process.registers[a as usize];
                if process.hold_back > 0 {
                    process.hold_back -= 1;
                    (code(3), channel, word)
                } else {
                    let queue = &mut self.queues[process.board as usize];
                    let to = &mut self.channels[channel as usize];
                    process.must_not_sync()?;
                    if queue.len() >= QUEUE {
                        return Err(code(38));
                    }
                    if to.held() {
                        return Err(code(39));
                    }
                    queue.push_back(Entry::Word { channel, place: process.place, word });
                    to.total += 1;
                    process.act();
                    (code(2), channel, word)
                }
            }
            Instruction::Jump { a, place } => {
                process.ran_long()?;
                process.place = if process.registers[a as usize] != 0 { place } else { process.place + 1 };
                process.instructions += 1;
                return done(0);
            }
        };
        process.place += 1;
        process.instructions += 1;
        Ok(answer)
    }

    fn sync(&mut self, p: usize) -> Answer {
        let process = &mut self.processes[p];
        let queue = &mut self.queues[process.board as usize];
        if process.backed().is_none() {
            return Err(code(40));
        }
        if process.waiting {
            return Err(code(41));
        }
        if queue.len() >= QUEUE {
            return Err(code(38) + 1);
        }
        let snapshot = Snapshot { registers: process.registers, taken: process.taken, place: process.place };
        queue.push_back(Entry::Sync { process: p as u8, snapshot });
        process.waiting = true;
        process.acts = 0;
        process.instructions = 0;
        process.taken = [0; 4];
        done(1)
    }

    fn carry(&mut self, board: usize, origin: &mut Origin) -> Answer {
        if self.dead[board] {
            return Err(code(34));
        }
        match self.queues[board].pop_front() {
            None => Err(code(42)),
            Some(Entry::Word { channel: k, place, word }) => {
                let channel = &mut self.channels[k as usize];
                match self.processes.get_mut(channel.reader as usize) {
                    Some(reader) => reader.arrive(Message { word, channel: k, slot: channel.slot }),
                    None => channel.total -= 1,
                }
                if let Some(backup) = self.processes[channel.sender as usize].backed() {
                    backup.count += 1;
                }
                *origin = [channel.sender, place];
                Ok((code(4), k, word))
            }
            Some(Entry::Sync { process: p, snapshot }) => {
                let process = &mut self.processes[p as usize];
                process.waiting = false;
                let Some(backup) = process.backed() else { return Ok((code(6), p, 0)) };
                Ok((code(5), p, backup.sync(&snapshot)))
            }
            Some(Entry::Resync { process: p }) => {
                let process = &mut self.processes[p as usize];
                process.waiting = false;
                process.backup.iter_mut().for_each(|backup| backup.complete = true);
                Ok((code(5) + 3, p, 0))
            }
        }
    }

    fn feed(&mut self, k: usize, word: u32, origin: &mut Origin) -> Answer {
        let channel = &mut self.channels[k];
        if channel.sender != OUTSIDE {
            return Err(code(43));
        }
        if channel.held() {
            return Err(code(39) + 1);
        }
        channel.total += 1;
        self.processes[channel.reader as usize].arrive(Message { word, channel: k as u8, slot: channel.slot });
        *origin = [OUTSIDE, 0];
        Ok((code(4) + 1, k as u8, word))
    }

    fn crash(&mut self, board: usize) -> Answer {
        if self.dead[board] {
            return Err(code(34) + 1);
        }
        if self.processes.iter_mut().any(|process| process.backed().is_none()) {
            return Err(code(44));
        }
        self.dead[board] = true;
        for entry in self.queues[board].drain(..) {
            if let Entry::Word { channel, .. } = entry {
                self.channels[channel as usize].total -= 1;
            }
        }
        for process in &mut self.processes {
            let runs_there = process.board as usize == board;
            let Some(backup) = process.backup.take_if(|backup| runs_there || backup.board as usize == board) else { continue };
            if runs_there {
                process.inbox.iter().for_each(|message| self.channels[message.channel as usize].total -= 1);
                backup.saved.iter().for_each(|message| self.channels[message.channel as usize].total += 1);
                process.inbox = backup.saved.into();
                process.registers = backup.registers;
                process.board = backup.board;
                process.place = backup.place;
                process.hold_back = backup.count;
                process.waiting = false;
            }
        }
        done(2)
    }

    fn give_back(&mut self, board: usize) -> Answer {
        if !self.dead[board] {
            return Err(code(48));
        }
        self.dead[board] = false;
        done(3)
    }

    fn resync(&mut self, p: usize) -> Answer {
        let process = &mut self.processes[p];
        let board = process.other_board();
        if process.backed().is_some() || self.dead[board as usize] {
            return Err(code(50));
        }
        let crowded = |channel: &Channel| channel.reader as usize == p && channel.total > HELD;
        if process.hold_back > 0 || self.channels.iter().any(crowded) {
            return Err(code(49));
        }
        if process.waiting {
            return Err(code(41) + 3);
        }
        let queue = &mut self.queues[process.board as usize];
        if queue.len() >= QUEUE {
            return Err(code(38) + 3);
        }
        queue.push_back(Entry::Resync { process: p as u8 });
        let (saved, registers, place) = (process.inbox.iter().copied().collect(), process.registers, process.place);
        process.backup = Some(Backup { complete: false, saved, registers, board, place, count: 0 });
        process.waiting = true;
        process.acts = 0;
        process.instructions = 0;
        process.taken = [0; 4];
        done(3)
    }

    fn quiet(&self) -> bool {
        self.queues.iter().all(VecDeque::is_empty) && self.processes.iter().all(Process::at_rest)
    }

    fn report(&self, report: &mut [u8]) {
        for (process, line) in self.processes.iter().zip(report.chunks_exact_mut(20)) {
            line[..4].copy_from_slice(&[process.board, process.place, process.inbox.len() as u8, process.hold_back]);
            for (register, bytes) in process.registers.iter().zip(line[4..].chunks_exact_mut(4)) {
                bytes.copy_from_slice(&register.to_be_bytes());
            }
        }
    }
}

/// The whole run, returned as the proved call returns it.
pub fn run(table: &[u8], schedule: &[u8], lent: Lent<&mut [u8]>) -> u64 {
    let (table, records) = match judge_run(table, schedule, lent.each().map(|buffer| buffer.len())) {
        Ok(judged) => judged,
        Err(number) => return number as u64,
    };
    let mut cabinet = Cabinet::new(&table);
    let origins = &mut lent.origins.as_chunks_mut().0[..records.len() / 6];
    origins.fill([NOWHERE; 2]);
    let told = lent.reasons.iter_mut().zip(origins);
    for ((record, bytes), (reason, origin)) in records.chunks_exact(6).zip(lent.answers.chunks_exact_mut(6)).zip(told) {
        let &[kind, a, w0, w1, w2, w3] = record else { unreachable!("six bytes") };
        let answer = cabinet.answer(kind, a as usize, u32::from_be_bytes([w0, w1, w2, w3]), origin);
        let (given, a, word) = answer.unwrap_or_else(|refused| (refused, a, 0));
        let [w0, w1, w2, w3] = word.to_be_bytes();
        bytes.copy_from_slice(&[given / 4, a, w0, w1, w2, w3]);
        *reason = given;
    }
    cabinet.report(lent.report);
    (records.len() as u64 / 6) << 32 | (cabinet.quiet() as u64) << 8
}
