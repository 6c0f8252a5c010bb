//! Sound tables whose programs calculate for long: loops of SET, ADD and JUMP, some without any word, some with a word taken or sent at
//! each turn, so that the limit on instructions is met before the limit on acts, with it, or after it (W-204).
use super::generate::in_some_version;
use super::reader::{Channel, Instruction, Process, Table, OUTSIDE};
use crate::random::Random;

/// A table of two to four boards and one to four processes in a row, each fed by the outside or by the one before it.
pub fn loops(random: &mut Random) -> Table {
    let (boards, processes) = (2 + random.below(3) as u8, 1 + random.below(4) as u8);
    let mut table = Table::new(boards, Vec::new());
    for reader in 0..processes {
        let sender = if reader == 0 || random.once_in(2) { OUTSIDE } else { reader - 1 };
        table.channels.push(Channel { sender, reader });
    }
    table.channels.push(Channel { sender: processes - 1, reader: OUTSIDE });
    for p in 0..processes as usize {
        let primary = random.below(boards as u32) as u8;
        let backup = (primary + 1 + random.below(boards as u32 - 1) as u8) % boards;
        let program = calculation(random, p as u8, table.sends(p).collect());
        table.processes.push(Process::new(primary, backup, program));
    }
    in_some_version(random, table)
}

/// A loop of up to 64 instructions; `channel` is one that it reads.
fn calculation(random: &mut Random, channel: u8, sends: Vec<u8>) -> Vec<Instruction> {
    let work = random.pick(&[1, 2, 5, 6, 7, 8, 30, 60]);
    let mut program = vec![Instruction::Set { a: 3, word: 1 }];
    let words = !random.once_in(3);
    if words {
        program.push(match random.below(2) {
            0 => Instruction::Take { a: 0, channel },
            _ => Instruction::First { a: 0, mask: 1 << channel },
        });
    }
    program.extend((0..work).map(|_| match random.below(3) {
        0 => Instruction::Set { a: 1, word: random.below(100) },
        1 => Instruction::Jump { a: 2, place: 1 },
        _ => Instruction::Add { a: random.pick(&[0, 1]), b: random.pick(&[0, 1, 3]) },
    }));
    if let Some(&channel) = sends.first().filter(|_| words) {
        program.push(Instruction::Send { a: random.pick(&[0, 1]), channel });
    }
    program.truncate(63);
    program.push(Instruction::Jump { a: 3, place: 1 });
    program
}
