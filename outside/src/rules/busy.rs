//! Sound tables whose programs go round for ever: every process reads what comes on any of its channels and sends on, so that words keep
//! moving and schedules of any length have accepted records. A label line is of this form.
use super::generate::placed;
use super::reader::{Channel, Instruction, Table, OUTSIDE};
use crate::random::Random;

/// A table of so many boards and processes, with up to 32 channels.
pub fn busy(random: &mut Random, boards: u8, processes: u8) -> Table {
    let mut table = Table::new(boards, Vec::new());
    let mut free: Vec<u8> = (0..processes).collect();
    // Each reads a channel from the outside or from the process before it.
    for reader in 0..processes {
        let sender = if reader == 0 || random.once_in(3) { OUTSIDE } else { reader - 1 };
        table.channels.push(Channel { sender, reader });
    }
    let all = 32 - random.below(33 - processes as u32).min(random.below(33)) as usize;
    let inputs = random.once_in(4);
    while table.channels.len() < all {
        free.retain(|&p| table.reads(p as usize).count() < 4);
        let some = random.below(processes as u32) as u8;
        let ends = match random.below(10) {
            _ if free.is_empty() => Channel { sender: some, reader: OUTSIDE },
            0 => Channel { sender: random.pick(&free), reader: OUTSIDE },
            1 => free.first().map(|&reader| Channel { sender: reader, reader }).unwrap(),
            2..=4 => Channel { sender: OUTSIDE, reader: random.pick(&free) },
            _ if inputs => Channel { sender: OUTSIDE, reader: random.pick(&free) },
            5..=6 => Channel { sender: some, reader: OUTSIDE },
            _ => Channel { sender: some, reader: random.pick(&free) },
        };
        table.channels.push(ends);
    }
    let used = if random.once_in(2) { boards.min(3) } else { boards };
    placed(random, table, used, processes, round)
}

/// A program that goes round for ever: reads a word on any of its channels, adds, and sends on each of its own; or first reads all.
fn round(random: &mut Random, reads: Vec<u8>, sends: Vec<u8>) -> Vec<Instruction> {
    let mask = reads.iter().fold(0, |mask, k| mask | 1 << k);
    let mut program = vec![Instruction::Set { a: 3, word: 1 }];
    for _ in 0..1 + random.below(3) {
        program.push(Instruction::First { a: 0, mask });
    }
    if random.once_in(2) {
        program.push(Instruction::Add { a: 2, b: 0 });
    }
    // A channel in use by a program that takes from one channel only may wait long: seldom.
    if random.once_in(6) {
        program.push(Instruction::Take { a: 0, channel: random.pick(&reads) });
    }
    for channel in sends {
        if !random.once_in(6) {
            program.push(Instruction::Send { a: random.pick(&[0, 1, 2]), channel });
        }
    }
    program.push(Instruction::Jump { a: 3, place: 1 });
    program
}
