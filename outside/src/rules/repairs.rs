//! Schedules in which boards crash, return and get their stand-bys back under load, again and again (W-210, W-211), and tables whose runs
//! come to rest when nothing more is fed.
use super::generate::{placed, Writing};
use super::reader::{Channel, Instruction, Record, Table, OUTSIDE};
use super::sample::{carry, crash, give_back, resync, step, sync};
use super::simulator::Cabinet;
use crate::random::Random;

/// A table of two to four boards with up to four processes in a row, each of which reads from the outside and from those before it, sends to
/// the outside and to those after it, and goes round for ever. With no more feeds its runs come to rest.
pub fn row(random: &mut Random) -> Table {
    let (boards, processes) = (2 + random.below(3) as u8, 1 + random.below(4) as u8);
    let mut table = Table::new(boards, Vec::new());
    for reader in 0..processes {
        let sender = if reader == 0 || random.once_in(3) { OUTSIDE } else { random.below(reader as u32) as u8 };
        table.channels.push(Channel { sender, reader });
    }
    for _ in 0..1 + random.below(2 * processes as u32 + 2) {
        let sender = random.below(processes as u32) as u8;
        let reader = sender + 1 + random.below((processes - sender) as u32) as u8;
        let inlet = random.once_in(4);
        let ends = match reader < processes && table.reads(reader as usize).count() < 4 {
            true if inlet => Channel { sender: OUTSIDE, reader },
            true => Channel { sender, reader },
            false => Channel { sender, reader: OUTSIDE },
        };
        table.channels.push(ends);
    }
    placed(random, table, boards, processes, passing_on)
}

/// Takes a word on any of its channels, or one on each in turn, adds, and sends on each of its own, for ever.
fn passing_on(random: &mut Random, reads: Vec<u8>, sends: Vec<u8>) -> Vec<Instruction> {
    let mut program = vec![Instruction::Set { a: 3, word: 1 }];
    let mask = reads.iter().fold(0, |mask, k| mask | 1 << k);
    for _ in 0..1 + random.below(2) {
        program.push(Instruction::First { a: 0, mask });
    }
    (0..random.pick(&[0, 1, 1, 6, 12])).for_each(|_| program.push(Instruction::Add { a: 2, b: random.pick(&[0, 1]) }));
    for channel in sends {
        program.push(Instruction::Send { a: random.pick(&[0, 1, 2]), channel });
    }
    program.push(Instruction::Jump { a: 3, place: 1 });
    program
}

/// Which processes have no backup.
pub fn bare(cabinet: &Cabinet) -> Vec<u8> {
    (0..cabinet.processes.len()).filter(|&p| cabinet.processes[p].backup.is_none()).map(|p| p as u8).collect()
}

impl Writing<'_, '_> {
    /// One record, kept where it is accepted, and of those refused one in three.
    fn tries(&mut self, record: Record) -> u8 {
        let code = self.cabinet.answer(record).code;
        if code < 32 || self.random.once_in(3) {
            self.schedule.push(record);
        }
        code
    }

    /// A step towards a backup for a process that has none: a resync, or what it is refused for.
    fn mend(&mut self, p: u8) {
        let process = &self.cabinet.processes[p as usize];
        let (board, other) = (process.board, process.other_board());
        if process.resyncs() {
            self.tries(carry(board));
            return;
        }
        match self.tries(resync(p)) {
            50 => {
                self.tries(give_back(other));
            }
            // Hold-back, or a crowded channel: it has to go on, and so have those to which it sends.
            49 => {
                let stuck = self.tries(step(p)) >= 32;
                if stuck {
                    self.round(false);
                }
            }
            38 | 41 => {
                self.tries(carry(board));
            }
            _ => (),
        }
    }

    /// A crash: of a board that some process runs on or has its record on, or of any.
    fn pull(&mut self) -> bool {
        let processes = &self.cabinet.processes;
        let process = &processes[self.random.below(processes.len() as u32) as usize];
        let some = self.random.below(16) as u8;
        let board = self.random.pick(&[process.board, process.board, process.board, process.other_board(), some]);
        self.tries(crash(board)) == 0
    }

    /// An instruction of each process, with a sync where one is owed, and a carry from each board where there is something to carry; with all
    /// of it or, by chance, without some. Whether anything was done.
    fn round(&mut self, all: bool) -> bool {
        let mut any = false;
        for p in 0..self.cabinet.processes.len() as u8 {
            if !all && self.random.once_in(3) {
                continue;
            }
            match self.cabinet.answer(step(p)).code {
                37 => any |= self.accepted(sync(p)),
                32.. => (),
                _ => {
                    self.schedule.push(step(p));
                    any = true;
                }
            }
        }
        for board in 0..self.cabinet.boards() {
            if all || !self.random.once_in(3) {
                any |= self.accepted(carry(board));
            }
        }
        any
    }

    /// A record that is left out where it is refused.
    fn accepted(&mut self, record: Record) -> bool {
        let done = self.cabinet.answer(record).code < 32;
        if done {
            self.schedule.push(record);
        }
        done
    }

    /// On to a quiet end, if there is one before so many records.
    fn rest(&mut self, most: usize) {
        while !self.cabinet.quiet() && self.schedule.len() < most && self.round(true) {}
    }
}

/// The most records of a schedule.
const RECORDS_MOST: usize = 10_000;

/// A schedule with up to so many accepted crashes, each followed by returns and resyncs until every process has a backup again, under load all
/// the time, for up to `most` records; then led on to a quiet end, which a `row` has.
pub fn crash_after_crash(random: &mut Random, table: &Table, crashes: usize, most: usize) -> Vec<Record> {
    let mut writing = Writing::new(random, table, Cabinet::new(table));
    let mut done = 0;
    // How many records of load there are between what mends and what breaks.
    let load = writing.random.pick(&[0, 1, 2, 5, 12]);
    while writing.schedule.len() < most && done < crashes {
        for _ in 0..writing.random.below(load + 1) {
            let room = writing.schedule.len() + 4;
            writing.go_on(room);
        }
        let bare = bare(&writing.cabinet);
        if bare.is_empty() || writing.random.once_in(30) {
            done += writing.pull() as usize;
        } else {
            let p = writing.random.pick(&bare);
            writing.mend(p);
        }
    }
    writing.rest(RECORDS_MOST);
    writing.schedule.truncate(RECORDS_MOST);
    writing.schedule
}

/// A schedule that leaves every process with a backup, after so many crashes; most often under load.
pub fn mended(random: &mut Random, table: &Table, crashes: usize) -> Vec<Record> {
    let mut writing = Writing::new(random, table, Cabinet::new(table));
    let mut done = 0;
    for _ in 0..200 * (crashes + 1) {
        match writing.random.below(3) {
            0 => {
                let room = writing.schedule.len() + 4;
                writing.go_on(room);
            }
            _ => {
                let bare = bare(&writing.cabinet);
                match bare.is_empty() {
                    true if done == crashes => break,
                    true => done += writing.pull() as usize,
                    false => {
                        let p = writing.random.pick(&bare);
                        writing.mend(p);
                    }
                }
            }
        }
    }
    writing.schedule
}
