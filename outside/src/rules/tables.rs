//! Sound tables of every kind that is generated here.
use super::busy::busy;
use super::generate::{largest, table};
use super::loops::loops;
use super::reader::Table;
use super::repairs::row;
use crate::random::Random;

/// Programs that calculate for long, that come to rest, that go round for ever, or any.
pub fn of_any_kind(random: &mut Random) -> Table {
    match random.below(6) {
        0 => loops(random),
        1 => row(random),
        2 | 3 => {
            let (boards, processes) = (2 + random.below(4) as u8, 1 + random.below(6) as u8);
            busy(random, boards, processes)
        }
        _ => table(random),
    }
}

/// Any table, once in n times the largest, and about half of the time one whose programs go round for ever.
pub fn of_any_size(random: &mut Random, n: u32) -> Table {
    match random.below(n) {
        0 => largest(random),
        k if k < n / 2 => {
            let (boards, processes) = (2 + random.below(15) as u8, 1 + random.below(16) as u8);
            busy(random, boards, processes)
        }
        _ => table(random),
    }
}
