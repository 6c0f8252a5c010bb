//! Sound tables and schedules by a seed, and their bytes.
use super::reader::{Channel, Instruction, Process, Record, Table, OUTSIDE};
use super::simulator::Cabinet;
use crate::random::Random;

/// The bytes of a table.
pub fn encode_table(table: &Table) -> Vec<u8> {
    let mut bytes = vec![0, 0, table.version, table.boards, table.processes.len() as u8, table.channels.len() as u8];
    for ends in &table.channels {
        bytes.extend([ends.sender, ends.reader]);
    }
    for process in &table.processes {
        bytes.extend([process.primary, process.backup]);
        if table.version != 1 {
            bytes.push(process.limit);
        }
        bytes.push(process.program.len() as u8);
        for &instruction in &process.program {
            let (code, a, operand) = match instruction {
                Instruction::Set { a, word } => (1, a, word),
                Instruction::Add { a, b } => (2, a, b as u32),
                Instruction::Take { a, channel } => (3, a, channel as u32),
                Instruction::First { a, mask } => (4, a, mask),
                Instruction::Send { a, channel } => (5, a, channel as u32),
                Instruction::Jump { a, place } => (6, a, place as u32),
            };
            bytes.extend([code, a]);
            bytes.extend(operand.to_be_bytes());
        }
    }
    with_length(bytes)
}

/// The bytes of a schedule.
pub fn encode_schedule(records: &[Record]) -> Vec<u8> {
    let mut bytes = vec![0, 0, 1];
    for record in records {
        bytes.extend([record.kind, record.a]);
        bytes.extend(record.word.to_be_bytes());
    }
    with_length(bytes)
}

/// The same bytes with the true length in bytes 0 and 1, as far as two bytes can hold it.
pub fn with_length(mut bytes: Vec<u8>) -> Vec<u8> {
    let length = (bytes.len() - 2) as u16;
    bytes[..2].copy_from_slice(&length.to_be_bytes());
    bytes
}

/// A number from `least` to `most`: an end, a small one, or any.
fn size(random: &mut Random, least: u32, most: u32) -> u32 {
    match random.below(6) {
        0 => least,
        1 => most,
        2 | 3 => least + random.below((most - least + 1).min(4)),
        _ => least + random.below(most - least + 1),
    }
}

pub fn any_word(random: &mut Random) -> u32 {
    let words = [0, 1, u32::MAX, random.below(100), random.below(100), random.word()];
    random.pick(&words)
}

/// A channel's ends: between two processes, from one to itself, from the outside, or to it. `free` are the processes that read fewer
/// than four channels.
fn channel(random: &mut Random, processes: u32, free: &[u8]) -> Channel {
    let some = random.below(processes) as u8;
    if free.is_empty() {
        return Channel { sender: some, reader: OUTSIDE };
    }
    let reader = random.pick(free);
    match random.below(8) {
        0 => Channel { sender: reader, reader },
        1..=2 => Channel { sender: OUTSIDE, reader },
        3..=4 => Channel { sender: some, reader: OUTSIDE },
        _ => Channel { sender: some, reader },
    }
}

/// What a program may name: how many registers it changes, its n, the channels that it reads, and those that it sends on.
struct Scope {
    registers: u32,
    n: u32,
    reads: Vec<u8>,
    sends: Vec<u8>,
}

fn instruction(random: &mut Random, scope: &Scope) -> Instruction {
    let a = random.below(scope.registers) as u8;
    let b = random.below(4) as u8;
    match random.below(16) {
        0..=3 if !scope.reads.is_empty() => Instruction::Take { a, channel: random.pick(&scope.reads) },
        4..=7 if !scope.reads.is_empty() => {
            let a = random.below(scope.registers - 1) as u8;
            let named = 1 + random.below(scope.reads.len() as u32);
            let mask = (0..named).fold(0, |mask, _| mask | 1 << random.pick(&scope.reads));
            Instruction::First { a, mask }
        }
        0..=12 if !scope.sends.is_empty() => Instruction::Send { a: b, channel: random.pick(&scope.sends) },
        13 => Instruction::Jump { a: b, place: random.below(scope.n + 1) as u8 },
        14 => Instruction::Set { a, word: any_word(random) },
        _ => Instruction::Add { a, b },
    }
}

/// A program of any instructions, or one that goes round for ever in a loop of them, with a word taken or sent at each turn.
fn program(random: &mut Random, reads: Vec<u8>, sends: Vec<u8>) -> Vec<Instruction> {
    let n = match random.below(12) {
        0 => 0,
        1 => 64,
        2 => random.below(65),
        _ => 2 + random.below(10),
    };
    let round = n > 3 && !(reads.is_empty() && sends.is_empty()) && !random.once_in(4);
    let scope = Scope { registers: if round { 3 } else { 4 }, n, reads, sends };
    let mut program: Vec<Instruction> = (0..n).map(|_| instruction(random, &scope)).collect();
    if round {
        program[0] = Instruction::Set { a: 3, word: 1 };
        program[1] = match scope.reads.is_empty() {
            true => Instruction::Send { a: 0, channel: random.pick(&scope.sends) },
            false => Instruction::First { a: 0, mask: scope.reads.iter().fold(0, |mask, k| mask | 1 << k) },
        };
        program[n as usize - 1] = Instruction::Jump { a: 3, place: 1 };
    }
    program
}

/// A limit of a process: an end, the one that version 1 has, or any.
pub fn limit(random: &mut Random) -> u8 {
    let any = 1 + random.below(16) as u8;
    random.pick(&[1, 2, 8, 16, 16, any, any])
}

/// A table of channels with so many processes on the first boards, each with a program by the channels that it reads and those that it sends on.
pub fn placed(
    random: &mut Random,
    mut table: Table,
    boards: u8,
    processes: u8,
    program: fn(&mut Random, Vec<u8>, Vec<u8>) -> Vec<Instruction>,
) -> Table {
    for p in 0..processes as usize {
        let primary = random.below(boards as u32) as u8;
        let backup = (primary + 1 + random.below(boards as u32 - 1) as u8) % boards;
        let program = program(random, table.reads(p).collect(), table.sends(p).collect());
        table.processes.push(Process::new(primary, backup, program));
    }
    in_some_version(random, table)
}

/// The table as it is, in version 1, or in version 2 with limits for its processes.
pub fn in_some_version(random: &mut Random, table: Table) -> Table {
    if random.once_in(2) {
        return table;
    }
    table.limited(|_| limit(random))
}

/// A sound table.
pub fn table(random: &mut Random) -> Table {
    let boards = size(random, 2, 16);
    let processes = size(random, 1, 16);
    let mut table = Table::new(boards as u8, Vec::new());
    let mut free: Vec<u8> = (0..processes as u8).collect();
    for _ in 0..size(random, 1, 32) {
        table.channels.push(channel(random, processes, &free));
        free.retain(|&p| table.reads(p as usize).count() < 4);
    }
    // Boards shared by many processes have full queues.
    let used = if random.once_in(2) { boards.min(3) } else { boards };
    for p in 0..processes as usize {
        let primary = random.below(used) as u8;
        let backup = ((primary as u32 + 1 + random.below(used - 1)) % used) as u8;
        let program = program(random, table.reads(p).collect(), table.sends(p).collect());
        table.processes.push(Process::new(primary, backup, program));
    }
    in_some_version(random, table)
}

/// The largest table of either version: 16 boards, 16 processes of 64 instructions, 32 channels.
pub fn largest(random: &mut Random) -> Table {
    let channels = (0..32).map(|k| Channel { sender: k % 16, reader: (k / 2 + 1) % 16 }).collect();
    let mut table = Table::new(16, channels);
    for p in 0..16 {
        let scope = Scope { registers: 4, n: 64, reads: table.reads(p).collect(), sends: table.sends(p).collect() };
        let program = (0..64).map(|_| instruction(random, &scope)).collect();
        table.processes.push(Process::new(p as u8, (p as u8 + 1) % 16, program));
    }
    in_some_version(random, table)
}

/// A place of the list, each as often as its weight says.
fn weighted(random: &mut Random, weights: &[u32]) -> usize {
    let mut at = random.below(weights.iter().sum());
    for (i, &weight) in weights.iter().enumerate() {
        if at < weight {
            return i;
        }
        at -= weight;
    }
    unreachable!("a number below the sum of the weights")
}

/// How often each move is tried, of all together, and how many times in a row.
struct Habits {
    weights: [u32; 7],
    row: u32,
}

fn habits(random: &mut Random) -> Habits {
    // Now and then inboxes and saved lists are filled, and syncs wait long; or queues are filled.
    let weights = match random.below(12) {
        0..=1 => [30, 4, 1, 60, 1, 1, 3],
        2 => [60, 8, 0, 20, 1, 1, 5],
        _ => [40, 3, 30, 15, 2, 2, 5],
    };
    let seldom = random.pick(&[0, 1, 2, 2, 2, 3, 4, 5, 6, 7, 7]);
    let mut habits = Habits { weights, row: random.pick(&[1, 1, 4, 12]) };
    if let Some(weight) = habits.weights.get_mut(seldom) {
        *weight = 1;
    }
    habits
}

/// A record that may well be accepted; a crash is none of these.
fn likely(random: &mut Random, table: &Table, cabinet: &Cabinet, habits: &Habits) -> Record {
    let p = random.below(table.processes.len() as u32) as u8;
    let kind = weighted(random, &habits.weights) as u8 + 1;
    match kind {
        1 | 2 => Record { kind, a: p, word: 0 },
        // A board that is dead, and a process that has no backup, where there is one.
        6 => {
            let dead: Vec<u8> = (0..table.boards).filter(|&board| cabinet.dead(board)).collect();
            Record {
                kind,
                a: if dead.is_empty() { random.below(table.boards as u32) as u8 } else { random.pick(&dead) },
                word: 0,
            }
        }
        7 => {
            let bare: Vec<u8> =
                (0..table.processes.len() as u8).filter(|&p| cabinet.processes[p as usize].backup.is_none()).collect();
            Record { kind, a: if bare.is_empty() { p } else { random.pick(&bare) }, word: 0 }
        }
        3 => Record { kind, a: cabinet.processes[p as usize].board, word: 0 },
        4 => {
            let outside: Vec<u8> = table.sends(OUTSIDE as usize).collect();
            let a = if outside.is_empty() { random.below(table.channels.len() as u32) as u8 } else { random.pick(&outside) };
            Record { kind, a, word: any_word(random) }
        }
        _ => garbage(random),
    }
}

/// A record that makes no sense, most often; a crash is not among them, and a move 8 only where it is refused: `going_back` has the others.
fn garbage(random: &mut Random) -> Record {
    let kind = random.pick(&[0, 1, 2, 3, 4, 6, 7, 8, 9, 255]);
    let a = random.pick(&[0, 1, 15, 16, 31, 32, 255]);
    let word = random.pick(&[0, 0, 1, u32::MAX]);
    Record { kind, a, word: if (kind, a) == (8, 0) { 1 } else { word } }
}

/// A crash of a board that some process uses, most often.
fn crash(random: &mut Random, table: &Table) -> Record {
    let process = &table.processes[random.below(table.processes.len() as u32) as usize];
    let some = random.below(table.boards as u32) as u8;
    let a = random.pick(&[process.primary, process.primary, process.backup, some]);
    Record { kind: 5, a, word: 0 }
}

/// A schedule while it is written, and the cabinet that it leaves.
pub(super) struct Writing<'a, 't> {
    table: &'t Table,
    pub(super) cabinet: Cabinet<'t>,
    habits: Habits,
    pub(super) random: &'a mut Random,
    pub(super) schedule: Vec<Record>,
    /// How many of the records are refused, and how many were tried and refused since one was accepted.
    refused: usize,
    in_vain: u32,
}

impl<'a, 't> Writing<'a, 't> {
    pub(super) fn new(random: &'a mut Random, table: &'t Table, cabinet: Cabinet<'t>) -> Writing<'a, 't> {
        let habits = habits(random);
        Writing { table, cabinet, habits, random, schedule: Vec::new(), refused: 0, in_vain: 0 }
    }

    /// One record, some times in a row as long as it is accepted. What is refused changes nothing, so that most of it can be left out:
    /// one in eight is refused at most, unless hardly anything can be accepted any more.
    pub(super) fn go_on(&mut self, most: usize) {
        let record = likely(self.random, self.table, &self.cabinet, &self.habits);
        for _ in 0..1 + self.random.below(self.habits.row) {
            let answer = self.cabinet.answer(record);
            if answer.code < 32 {
                self.in_vain = 0;
                self.schedule.push(record);
            } else {
                self.in_vain += 1;
                if self.random.once_in(20) && (8 * self.refused < self.schedule.len() || self.in_vain > 300) {
                    self.refused += 1;
                    self.schedule.push(record);
                }
                // A full queue refuses a sync and a resync as well, which are seldom tried by themselves; it too changes nothing.
                if answer.code == 38 && self.schedule.len() + 1 < most {
                    self.schedule.extend([2, 7].map(|kind| Record { kind, ..record }));
                }
                return;
            }
            if self.schedule.len() >= most {
                return;
            }
        }
    }
}

/// As many records as asked for, most of them accepted, with one crash at some place, or several tries, or none.
pub fn schedule(random: &mut Random, table: &Table, records: usize) -> Vec<Record> {
    let mut crash_at = if random.once_in(3) { records } else { random.below(records as u32 + 1) as usize };
    let mut writing = Writing::new(random, table, Cabinet::new(table));
    while writing.schedule.len() < records {
        if writing.schedule.len() >= crash_at {
            let record = crash(writing.random, table);
            writing.cabinet.answer(record);
            writing.schedule.push(record);
            // Nothing is carried from a dead board.
            if writing.random.once_in(4) && writing.schedule.len() < records {
                let carry = Record { kind: 3, ..record };
                writing.cabinet.answer(carry);
                writing.schedule.push(carry);
            }
            let again = crash_at + 1 + writing.random.below(20) as usize;
            crash_at = if writing.random.once_in(3) { again } else { records };
        } else {
            writing.go_on(crash_at.min(records));
        }
    }
    writing.schedule
}

/// As many records as asked for from this cabinet on, most of them accepted and none of them a crash.
pub fn continued(random: &mut Random, table: &Table, cabinet: Cabinet, records: usize) -> Vec<Record> {
    let mut writing = Writing::new(random, table, cabinet);
    while writing.schedule.len() < records {
        writing.go_on(records);
    }
    writing.schedule
}
