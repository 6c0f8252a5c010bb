//! That a cabinet goes on. No document asks for it; the words are those of docs/THEOREMS.md, "That it goes on".
//!
//! What can be done is found by trying. A standstill is told from the state alone, with unread words counted afresh: no answer is asked for it.
use super::reader::{Instruction, Record, Table};
use super::sample::{carry, step, sync};
use super::simulator::{Cabinet, Process};

/// So many steps of a process are enough to hold nothing back any more.
pub const STEPS_MOST: usize = 64;

/// So many words on a channel fill it.
const FULL: usize = 8;

/// What an answer has to be.
#[derive(Clone, Copy, Debug, PartialEq, Eq)]
pub enum Wanted {
    Done,
    Refused,
    Code(u8),
    Any,
}

impl Wanted {
    pub fn met(self, code: u8) -> bool {
        match self {
            Wanted::Done => code < 32,
            Wanted::Refused => code >= 32,
            Wanted::Code(wanted) => code == wanted,
            Wanted::Any => true,
        }
    }
}

/// What a cabinet does with nothing from outside: the oldest entry of a queue is carried; a process does an instruction; or it owes a sync,
/// issues it, and then does one.
#[derive(Clone, Copy, Debug, PartialEq, Eq)]
pub enum Next {
    Carry(u8),
    Step(u8),
    Sync(u8),
}

impl Next {
    /// Carries from a board, if that can be done.
    pub fn of_board(cabinet: &mut Cabinet, board: u8) -> Option<Next> {
        (cabinet.answer(carry(board)).code < 32).then_some(Next::Carry(board))
    }

    /// Steps a process, with a sync before it where one is owed, if that can be done. A sync alone is nothing: it is left out then.
    pub fn of_process(cabinet: &mut Cabinet, p: u8) -> Option<Next> {
        match cabinet.answer(step(p)).code {
            ..32 => Some(Next::Step(p)),
            37 => {
                let mut synced = cabinet.clone();
                [sync(p), step(p)].iter().all(|&record| synced.answer(record).code < 32).then(|| {
                    *cabinet = synced;
                    Next::Sync(p)
                })
            }
            _ => None,
        }
    }

    /// Its records, and what each is answered.
    pub fn records(self) -> Vec<(Record, Wanted)> {
        match self {
            Next::Carry(board) => vec![(carry(board), Wanted::Done)],
            Next::Step(p) => vec![(step(p), Wanted::Done)],
            Next::Sync(p) => vec![(step(p), Wanted::Code(37)), (sync(p), Wanted::Done), (step(p), Wanted::Done)],
        }
    }
}

/// Something that can be done, if anything can.
fn next(cabinet: &Cabinet) -> Option<Next> {
    let mut copy = cabinet.clone();
    let carried = (0..cabinet.boards()).find_map(|board| Next::of_board(&mut copy, board));
    carried.or_else(|| (0..cabinet.processes.len() as u8).find_map(|p| Next::of_process(&mut copy, p)))
}

fn unread(process: &Process, channel: u8) -> usize {
    process.inbox.iter().filter(|message| message.channel == channel).count()
}

/// A process is at a SEND, not held back, to a channel that is full: its reader leaves 8 words or more of it unread. (The outside reads at once.)
pub fn pressed(table: &Table, cabinet: &Cabinet, p: usize) -> bool {
    let process = &cabinet.processes[p];
    let Some(Instruction::Send { channel, .. }) = process.instruction() else { return false };
    let reader = cabinet.processes.get(table.channels[channel as usize].reader as usize);
    process.hold_back == 0 && reader.is_some_and(|reader| unread(reader, channel) >= FULL)
}

/// No queue has an entry, each process has halted, waits for a word or is pressed, and one at least is pressed.
fn standstill(table: &Table, cabinet: &Cabinet) -> bool {
    let pressed: Vec<bool> = (0..cabinet.processes.len()).map(|p| pressed(table, cabinet, p)).collect();
    let each = cabinet.processes.iter().zip(&pressed).all(|(process, &pressed)| pressed || process.rests());
    (0..cabinet.boards()).all(|board| cabinet.queued(board) == 0) && each && pressed.contains(&true)
}

#[derive(Clone, Copy, Debug, PartialEq, Eq)]
pub enum Standing {
    Quiet,
    GoesOn(Next),
    Standstill,
}

/// Which of the three it is: always one, and never two.
pub fn standing(table: &Table, cabinet: &Cabinet) -> Standing {
    match (cabinet.quiet(), next(cabinet), standstill(table, cabinet)) {
        (true, None, false) => Standing::Quiet,
        (false, Some(next), false) => Standing::GoesOn(next),
        (false, None, true) => Standing::Standstill,
        other => panic!("quiet, what is next, standstill: {other:?}: {table:?} {cabinet:?}"),
    }
}

/// Steps a process until it holds nothing back, and says how many steps that were. None is refused, 64 are enough, and nothing else changes.
pub fn level(cabinet: &mut Cabinet, p: usize) -> usize {
    let before = cabinet.clone();
    let mut steps = 0;
    while cabinet.processes[p].hold_back > 0 {
        let code = cabinet.answer(step(p as u8)).code;
        steps += 1;
        assert!(code < 32 && steps <= STEPS_MOST, "process {p} isn't level: step {steps} answers {code}: {before:?}");
    }
    assert!(cabinet.same_but(p, &before), "something else changes while process {p} becomes level: {before:?}");
    steps
}

/// Words go upward: a channel between processes leads to one with a higher number, and each TAKE and FIRST names all inputs of its process.
pub fn upward(table: &Table) -> bool {
    let processes = table.processes.len() as u8;
    let up = table.channels.iter().all(|ends| ends.sender >= processes || ends.reader >= processes || ends.sender < ends.reader);
    let any = table.processes.iter().enumerate().all(|(p, process)| {
        let inputs = table.reads(p).fold(0, |mask, k| mask | 1 << k);
        process.program.iter().all(|instruction| match *instruction {
            Instruction::Take { channel, .. } => inputs == 1 << channel,
            Instruction::First { mask, .. } => inputs == mask,
            _ => true,
        })
    });
    up && any
}

/// Some process has halted with 8 words or more of one channel unread.
pub fn halted_reader(table: &Table, cabinet: &Cabinet) -> bool {
    let channels = || 0..table.channels.len() as u8;
    cabinet.processes.iter().any(|process| process.instruction().is_none() && channels().any(|k| unread(process, k) >= FULL))
}
