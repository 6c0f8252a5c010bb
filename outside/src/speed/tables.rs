//! The tables of the runs that are timed. All have 16 processes on 8 boards, process p on board p modulo 8 with its backup on the next one.
use outside::rules::reader::Instruction::{Add, First, Jump, Send, Set, Take};
use outside::rules::reader::{Channel, Instruction, Process, Table, OUTSIDE};

const BOARDS: u8 = 8;
const PROCESSES: u8 = 16;

fn table(channels: Vec<(u8, u8)>, program: impl Fn(u8) -> Vec<Instruction>) -> Table {
    let channels = channels.into_iter().map(|(sender, reader)| Channel { sender, reader }).collect();
    let mut table = Table::new(BOARDS, channels);
    table.processes = (0..PROCESSES).map(|p| Process::new(p % BOARDS, (p + 1) % BOARDS, program(p))).collect();
    table
}

/// A program that goes round for ever; its register 3 is 1.
fn round(body: impl IntoIterator<Item = Instruction>) -> Vec<Instruction> {
    let mut program = vec![Set { a: 3, word: 1 }];
    program.extend(body);
    program.push(Jump { a: 3, place: 1 });
    program
}

/// Four label lines of four processes each, 32 channels: two scanners feed the first, the second also sends to itself, the third and
/// the last print. `work` is how many additions each makes for a word.
pub fn lines(work: usize) -> Table {
    let channels = (0..4u8).flat_map(|line| {
        let p = 4 * line;
        [
            (OUTSIDE, p),
            (OUTSIDE, p),
            (p, p + 1),
            (p + 1, p + 1),
            (p + 1, p + 2),
            (p + 2, OUTSIDE),
            (p + 2, p + 3),
            (p + 3, OUTSIDE),
        ]
    });
    table(channels.collect(), |p| {
        let channel = 8 * (p / 4);
        let send = |a, k| Send { a, channel: channel + k };
        let take = |a, k| Take { a, channel: channel + k };
        let mut body = match p % 4 {
            0 => vec![First { a: 0, mask: 0b11 << channel }, Add { a: 2, b: 0 }, send(0, 2)],
            1 => vec![take(0, 2), send(0, 3), take(1, 3), send(1, 4)],
            2 => vec![First { a: 0, mask: 1 << (channel + 4) }, send(0, 5), send(0, 6)],
            _ => vec![take(0, 6), send(0, 7)],
        };
        body.extend([Add { a: 2, b: 0 }].repeat(work));
        round(body)
    })
}

/// Each process sends on two channels to the outside, without end.
pub fn senders() -> Table {
    let channels = (0..32).map(|k| (k / 2, OUTSIDE)).collect();
    table(channels, |p| round([Send { a: 3, channel: 2 * p }, Send { a: 2, channel: 2 * p + 1 }].repeat(30)))
}

/// Each process reads two channels from the outside: five words as they came, then one of its second channel.
pub fn readers() -> Table {
    table((0..32).map(|k| (OUTSIDE, k / 2)).collect(), |p| {
        let mut body = [First { a: 0, mask: 0b11 << (2 * p) }].repeat(5);
        body.push(Take { a: 2, channel: 2 * p + 1 });
        round(body)
    })
}

/// W-204: each process makes a checksum of a word in twenty rounds of a loop, so that a sync is owed for instructions alone.
pub fn checksums() -> Table {
    let channels = (0..32).map(|k| if k < 16 { (OUTSIDE, k) } else { (k - 16, OUTSIDE) }).collect();
    let less = u32::MAX;
    table(channels, |p| {
        vec![
            Set { a: 2, word: less },
            Take { a: 0, channel: p },
            Set { a: 1, word: 20 },
            Add { a: 0, b: 1 },
            Add { a: 1, b: 2 },
            Jump { a: 1, place: 3 },
            Send { a: 0, channel: 16 + p },
            Jump { a: 2, place: 1 },
        ]
    })
}

/// Eight processes read four channels each from the outside, by sixteen FIRSTs over all four in a row, and owe a sync after sixteen. There are no
/// more channels: the other eight have no program.
pub fn firsts() -> Table {
    let channels = (0..32).map(|k| (OUTSIDE, k / 4)).collect();
    let program = |p: u8| if p < 8 { round([First { a: 0, mask: 0b1111 << (4 * p) }].repeat(16)) } else { Vec::new() };
    table(channels, program).limited(|_| 16)
}
