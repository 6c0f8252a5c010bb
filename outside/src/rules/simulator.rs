//! The cabinet: document 01, "The cabinet's moves" and "What each move replies", with W-210's two moves, on growing lists.
//!
//! For each channel the total of its unread and queued words is kept, so that no move counts them.
use super::answer::{Answer, Origin, DONE, FED};
use super::backup::{Backup, Message, Snapshot};
use super::reader::{self, Instruction, Record, Table, OUTSIDE};
use std::collections::VecDeque;

/// "An entry of an outgoing queue is a word or a sync"; W-210: "its snapshot and copies of all its unread words join the queue as one
/// entry".
#[derive(Clone, Debug, PartialEq, Eq)]
pub(super) enum Entry {
    Word { channel: u8, word: u32, origin: Origin },
    Sync { process: u8, snapshot: Snapshot },
    Resync { process: u8, snapshot: Snapshot, copies: Vec<Message> },
}

/// What of a process waits in its board's queue, beside words.
#[derive(Clone, Debug, PartialEq, Eq)]
pub(super) enum Waiting {
    Nothing,
    Sync,
    /// With the words "that have arrived since issue".
    Resync {
        arrived: Vec<Message>,
    },
}

#[derive(Clone, Debug, PartialEq, Eq)]
pub struct Process<'t> {
    program: &'t [Instruction],
    limit: u8,
    /// Its two boards in the table.
    homes: [u8; 2],
    pub board: u8,
    pub place: u8,
    pub registers: [u32; 4],
    /// Unread words in order of arrival.
    pub inbox: VecDeque<Message>,
    pub hold_back: u8,
    /// "takes and queued sends since its last sync was issued". "A backed process has acts": of another none of the three is counted.
    pub(super) acts: u32,
    /// W-204: "instructions done since its last sync was issued"
    pub(super) instructions: u32,
    pub(super) taken: [u32; 4],
    pub(super) waiting: Waiting,
    pub backup: Option<Backup>,
}

impl<'t> Process<'t> {
    fn new(given: &'t reader::Process) -> Process<'t> {
        Process {
            program: &given.program,
            limit: given.limit,
            homes: [given.primary, given.backup],
            board: given.primary,
            place: 0,
            registers: [0; 4],
            inbox: VecDeque::new(),
            hold_back: 0,
            acts: 0,
            instructions: 0,
            taken: [0; 4],
            waiting: Waiting::Nothing,
            backup: Some(Backup::new(given.backup)),
        }
    }

    /// The instruction at its place, if it isn't halted.
    pub fn instruction(&self) -> Option<Instruction> {
        self.program.get(self.place as usize).copied()
    }

    /// "halted or would answer 36"
    pub fn rests(&self) -> bool {
        match self.instruction() {
            None => true,
            Some(Instruction::Take { channel, .. }) => self.oldest(1 << channel).is_none(),
            Some(Instruction::First { mask, .. }) => self.oldest(mask).is_none(),
            Some(_) => false,
        }
    }

    /// A word reaches the inbox and the backup record, if there is one; a resync that waits will bring it there too.
    fn arrive(&mut self, message: Message) {
        self.inbox.push_back(message);
        if let Waiting::Resync { arrived } = &mut self.waiting {
            arrived.push(message);
        }
        if let Some(backup) = &mut self.backup {
            backup.saved.push(message);
            // W-207: "at most 32 plus twice the limit saved words"
            debug_assert!(backup.saved.len() <= 32 + 2 * self.limit as usize, "more saved words than the limit allows");
        }
    }

    /// W-210: "its other table board", of its two the one on which it doesn't run.
    pub fn other_board(&self) -> u8 {
        let [primary, backup] = self.homes;
        if self.board == primary {
            backup
        } else {
            primary
        }
    }

    pub fn resyncs(&self) -> bool {
        matches!(self.waiting, Waiting::Resync { .. })
    }

    /// Whether 37 limits it: backed, or W-210, "from then on 37 limits the process as if it were backed".
    fn limited(&self) -> bool {
        self.backup.is_some() || self.resyncs()
    }

    /// Where the oldest unread word is whose channel is in the mask.
    fn oldest(&self, mask: u32) -> Option<usize> {
        self.inbox.iter().position(|message| mask >> message.channel & 1 == 1)
    }

    /// W-204: "A backed process now also owes a sync after 64 instructions"
    fn ran_long(&self) -> bool {
        self.limited() && self.instructions >= 64
    }

    /// "37 if backed and acts are 8", in W-207 the process's limit; or for its instructions; with the cause. W-206: "Code 37: 1 when only
    /// the 64 instructions are to blame".
    fn must_sync(&self) -> Option<u8> {
        let acted = self.limited() && self.acts >= self.limit as u32;
        (acted || self.ran_long()).then_some(if acted { 0 } else { 1 })
    }

    /// Removes an unread word.
    fn take(&mut self, at: usize) -> Message {
        let message = self.inbox.remove(at).expect("an unread word");
        if self.limited() {
            self.taken[message.slot as usize] += 1;
            self.acts += 1;
        }
        message
    }

    /// What a sync or a resync brings; acts, instructions and takes start from 0.
    fn issue(&mut self) -> Snapshot {
        let snapshot = Snapshot { registers: self.registers, place: self.place, taken: self.taken };
        self.acts = 0;
        self.instructions = 0;
        self.taken = [0; 4];
        snapshot
    }
}

/// A channel's ends, and its slot at its reader.
#[derive(Clone, Copy, Debug, PartialEq, Eq)]
struct Wire {
    sender: u8,
    reader: u8,
    slot: u8,
}

#[derive(Clone, Debug, PartialEq, Eq)]
pub struct Cabinet<'t> {
    wires: Vec<Wire>,
    pub processes: Vec<Process<'t>>,
    pub(super) queues: Vec<VecDeque<Entry>>,
    /// Unread and queued words of each channel together.
    pub(super) totals: Vec<u32>,
    /// Which boards have crashed and not returned.
    pub(super) dead: Vec<bool>,
}

impl<'t> Cabinet<'t> {
    /// "every board live, each process on its primary board, inboxes and queues empty, each backup record as it starts, all else 0"
    pub fn new(table: &'t Table) -> Cabinet<'t> {
        let slot = |k: usize| table.channels[..k].iter().filter(|ends| ends.reader == table.channels[k].reader).count();
        let wires = table.channels.iter().enumerate();
        Cabinet {
            wires: wires.map(|(k, ends)| Wire { sender: ends.sender, reader: ends.reader, slot: slot(k) as u8 }).collect(),
            processes: table.processes.iter().map(Process::new).collect(),
            queues: vec![VecDeque::new(); table.boards as usize],
            totals: vec![0; table.channels.len()],
            dead: vec![false; table.boards as usize],
        }
    }

    /// One record and its answer. What is refused changes nothing.
    pub fn answer(&mut self, record: Record) -> Answer {
        let a = record.a as usize;
        let refused = |code| Answer::refused(code, a);
        // "32 for an unknown move or a word that should be 0; 33 if a is no process, board or channel of this table". W-206: "Code 33: 1
        // for a board, 2 for a channel."
        let (among, cause) = match record.kind {
            // W-210: "under 33, move 6 has cause 1 and move 7 cause 0"
            1 | 2 | 7 => (self.processes.len(), 0),
            3 | 5 | 6 => (self.queues.len(), 1),
            4 => (self.wires.len(), 2),
            _ => return refused(32),
        };
        if record.kind != 4 && record.word != 0 {
            // W-206: "Code 32: 1 when the move is known and the word is at fault."
            return refused(32).because(1);
        }
        if a >= among {
            return refused(33).because(cause);
        }
        match record.kind {
            1 => self.step(a),
            2 => self.sync(a),
            3 => self.carry(a),
            4 => self.feed(a, record.word),
            5 => self.crash(a),
            6 => self.give_back(a),
            _ => self.resync(a),
        }
    }

    pub fn boards(&self) -> u8 {
        self.dead.len() as u8
    }

    pub fn dead(&self, board: u8) -> bool {
        self.dead[board as usize]
    }

    /// How many entries a board's queue has.
    pub fn queued(&self, board: u8) -> usize {
        self.queues[board as usize].len()
    }

    /// Whether boards, queues and all processes but one are as they are there.
    pub fn same_but(&self, p: usize, there: &Cabinet) -> bool {
        let mut pairs = self.processes.iter().zip(&there.processes).enumerate();
        self.dead == there.dead && self.queues == there.queues && pairs.all(|(i, (ours, theirs))| i == p || ours == theirs)
    }

    /// "A channel is held when its unread words and those in the queues are 8 or more together. A channel read by the outside is
    /// never held."
    fn held(&self, channel: usize) -> bool {
        self.wires[channel].reader != OUTSIDE && self.totals[channel] >= 8
    }

    fn step(&mut self, p: usize) -> Answer {
        let refused = |code| Answer::refused(code, p);
        let process = &mut self.processes[p];
        let Some(instruction) = process.instruction() else { return refused(35) };
        let answer = match instruction {
            // W-204: "Every kind of instruction then answers 37"
            Instruction::Set { .. } | Instruction::Add { .. } | Instruction::Jump { .. } if process.ran_long() => {
                // W-206: "always so for SET, ADD and JUMP"
                return refused(37).because(1);
            }
            Instruction::Set { a, word } => {
                process.registers[a as usize] = word;
                DONE
            }
            Instruction::Add { a, b } => {
                process.registers[a as usize] = process.registers[a as usize].wrapping_add(process.registers[b as usize]);
                DONE
            }
            Instruction::Take { a, channel } => {
                let Some(at) = process.oldest(1 << channel) else { return refused(36) };
                if let Some(cause) = process.must_sync() {
                    return refused(37).because(cause);
                }
                let message = process.take(at);
                self.totals[channel as usize] -= 1;
                process.registers[a as usize] = message.word;
                Answer::new(1, channel, message.word)
            }
            Instruction::First { a, mask } => {
                // W-206: "Code 36: 1 for FIRST."
                let Some(at) = process.oldest(mask) else { return refused(36).because(1) };
                if let Some(cause) = process.must_sync() {
                    return refused(37).because(cause);
                }
                let message = process.take(at);
                self.totals[message.channel as usize] -= 1;
                process.registers[a as usize] = message.word;
                process.registers[a as usize + 1] = message.channel as u32;
                Answer::new(1, message.channel, message.word)
            }
            Instruction::Send { a, channel } => {
                let word = process.registers[a as usize];
                if process.hold_back > 0 {
                    process.hold_back -= 1;
                    Answer::new(3, channel, word)
                } else {
                    let board = process.board as usize;
                    // W-212: "the place of its SEND and the sender", whatever becomes of the process until the word is carried.
                    let origin = Origin { sender: p as u8, place: process.place };
                    if let Some(cause) = process.must_sync() {
                        return refused(37).because(cause);
                    }
                    if self.queues[board].len() >= 32 {
                        return refused(38);
                    }
                    if self.held(channel as usize) {
                        return refused(39);
                    }
                    self.queues[board].push_back(Entry::Word { channel, word, origin });
                    self.totals[channel as usize] += 1;
                    self.processes[p].acts += self.processes[p].limited() as u32;
                    Answer::new(2, channel, word)
                }
            }
            Instruction::Jump { a, place } => {
                if process.registers[a as usize] != 0 {
                    process.place = place;
                    process.instructions += process.limited() as u32;
                    return DONE;
                }
                DONE
            }
        };
        let process = &mut self.processes[p];
        process.place += 1;
        process.instructions += process.limited() as u32;
        answer
    }

    fn sync(&mut self, p: usize) -> Answer {
        let process = &mut self.processes[p];
        let queue = &mut self.queues[process.board as usize];
        // "Sync: 40 no backup, 41 one waiting, 38 queue full." W-206: "Code 38: 1 for a sync."
        if process.backup.is_none() {
            return Answer::refused(40, p);
        }
        if process.waiting != Waiting::Nothing {
            return Answer::refused(41, p);
        }
        if queue.len() >= 32 {
            return Answer::refused(38, p).because(1);
        }
        queue.push_back(Entry::Sync { process: p as u8, snapshot: process.issue() });
        process.waiting = Waiting::Sync;
        // W-206: "Code 0: 1 for a sync, 2 for a crash."
        DONE.because(1)
    }

    fn carry(&mut self, board: usize) -> Answer {
        // "Carry: 34 board dead, 42 queue empty."
        if self.dead[board] {
            return Answer::refused(34, board);
        }
        match self.queues[board].pop_front() {
            None => Answer::refused(42, board),
            Some(Entry::Word { channel, word, origin }) => {
                let wire = self.wires[channel as usize];
                match self.processes.get_mut(wire.reader as usize) {
                    Some(reader) => reader.arrive(Message { channel, slot: wire.slot, word }),
                    None => self.totals[channel as usize] -= 1,
                }
                let sender = &mut self.processes[wire.sender as usize];
                if let Some(backup) = &mut sender.backup {
                    backup.count += 1;
                    // W-207: "a count of at most twice the limit"; it never passes the limit itself.
                    debug_assert!(backup.count <= sender.limit, "a count over the limit");
                }
                Answer::new(4, channel, word).sent(origin)
            }
            Some(Entry::Sync { process, snapshot }) => {
                let of = &mut self.processes[process as usize];
                of.waiting = Waiting::Nothing;
                // W-202: "A carried sync then answers 5 with the total dropped as its word".
                let (code, word) = match &mut of.backup {
                    Some(backup) => (5, backup.sync(snapshot)),
                    None => (6, 0),
                };
                Answer::new(code, process, word)
            }
            Some(Entry::Resync { process, snapshot, copies }) => {
                self.new_record(process as usize, snapshot, copies);
                // W-210: "Its carry answers 5 with word 0"; cause 3 "under 5, 38 and 41 a resync"
                Answer::new(5, process, 0).because(3)
            }
        }
    }

    /// W-210: "When that entry is carried, its other table board holds a new record with those words, then all that have arrived since
    /// issue, and count 0."
    fn new_record(&mut self, p: usize, snapshot: Snapshot, copies: Vec<Message>) {
        let process = &mut self.processes[p];
        let Waiting::Resync { arrived } = std::mem::replace(&mut process.waiting, Waiting::Nothing) else {
            unreachable!("a resync waits")
        };
        let mut record = Backup::new(process.other_board());
        record.saved = [copies, arrived].concat();
        record.place = snapshot.place;
        record.registers = snapshot.registers;
        debug_assert!(record.saved.len() <= 32 + 2 * process.limit as usize, "more saved words than the limit allows");
        process.backup = Some(record);
    }

    fn feed(&mut self, channel: usize, word: u32) -> Answer {
        let wire = self.wires[channel];
        // "Feed: 43 sender not outside, 39 held." W-206: "Code 39: 1 for a feed."
        if wire.sender != OUTSIDE {
            return Answer::refused(43, channel);
        }
        if self.held(channel) {
            return Answer::refused(39, channel).because(1);
        }
        self.processes[wire.reader as usize].arrive(Message { channel: channel as u8, slot: wire.slot, word });
        self.totals[channel] += 1;
        // W-206: "Code 4: 1 for a feed."
        Answer::new(4, channel as u8, word).because(1).sent(FED)
    }

    fn crash(&mut self, board: usize) -> Answer {
        // "Crash: 34 already dead"; W-206: "Code 34: 1 for a crash."
        if self.dead[board] {
            return Answer::refused(34, board).because(1);
        }
        // W-210: "Crash refuses with 44 now exactly while some process has no backup."
        if self.processes.iter().any(|process| process.backup.is_none()) {
            return Answer::refused(44, board);
        }
        self.dead[board] = true;
        // "its queue is lost"
        for entry in self.queues[board].drain(..) {
            if let Entry::Word { channel, .. } = entry {
                self.totals[channel as usize] -= 1;
            }
        }
        for process in &mut self.processes {
            let runs_there = process.board as usize == board;
            let Some(backup) = process.backup.take_if(|backup| runs_there || backup.board as usize == board) else { continue };
            if !runs_there {
                continue;
            }
            for message in &process.inbox {
                self.totals[message.channel as usize] -= 1;
            }
            for message in &backup.saved {
                self.totals[message.channel as usize] += 1;
            }
            *process = Process {
                program: process.program,
                limit: process.limit,
                homes: process.homes,
                board: backup.board,
                place: backup.place,
                registers: backup.registers,
                inbox: backup.saved.into(),
                hold_back: backup.count,
                acts: 0,
                instructions: 0,
                taken: [0; 4],
                waiting: Waiting::Nothing,
                backup: None,
            };
        }
        DONE.because(2)
    }

    /// W-210: "Move 6 returns board a with an empty queue; nothing runs there yet."
    fn give_back(&mut self, board: usize) -> Answer {
        // "48, a return of a live board, after 33"
        if !self.dead[board] {
            return Answer::refused(48, board);
        }
        self.dead[board] = false;
        self.queues[board].clear();
        // "cause 3 under code 0 means a return or a resync, which there count as one cause"
        DONE.because(3)
    }

    /// W-210: "Move 7 resyncs process a: its snapshot and copies of all its unread words join the queue as one entry."
    fn resync(&mut self, p: usize) -> Answer {
        let process = &self.processes[p];
        let queue = &self.queues[process.board as usize];
        // "Move 7 refuses in the order 50, 49, 41 (for a waiting resync too), 38."
        // "50, the process has a backup or its other table board is dead"
        if process.backup.is_some() || self.dead[process.other_board() as usize] {
            return Answer::refused(50, p);
        }
        // "49, hold-back above 0 or, on one channel it reads, more than 8 words unread and in queues together"
        let crowded = (0..self.wires.len()).any(|k| self.wires[k].reader as usize == p && self.totals[k] > 8);
        if process.hold_back > 0 || crowded {
            return Answer::refused(49, p);
        }
        if process.waiting != Waiting::Nothing {
            return Answer::refused(41, p).because(3);
        }
        if queue.len() >= 32 {
            return Answer::refused(38, p).because(3);
        }
        let process = &mut self.processes[p];
        let copies = process.inbox.iter().copied().collect();
        let snapshot = process.issue();
        process.waiting = Waiting::Resync { arrived: Vec::new() };
        self.queues[process.board as usize].push_back(Entry::Resync { process: p as u8, snapshot, copies });
        DONE.because(3)
    }

    /// "Quiet: each process is halted or would answer 36, and no queue has an entry."
    pub fn quiet(&self) -> bool {
        self.queues.iter().all(VecDeque::is_empty) && self.processes.iter().all(Process::rests)
    }

    /// "The report: board, place, unread count and hold-back, a byte each, then four registers."
    pub fn report(&self, report: &mut [u8]) {
        for (process, bytes) in self.processes.iter().zip(report.chunks_exact_mut(20)) {
            bytes[..4].copy_from_slice(&[process.board, process.place, process.inbox.len() as u8, process.hold_back]);
            for (register, bytes) in process.registers.iter().zip(bytes[4..].chunks_exact_mut(4)) {
                bytes.copy_from_slice(&register.to_be_bytes());
            }
        }
    }
}
