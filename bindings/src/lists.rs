//! Tables as lists of numbers: written, and taken apart again.
use crate::calls;
use crate::refusal::Refusal;

/// The longest table, in bytes.
pub const TABLE_MOST: usize = 6278;

/// The longest lists of a table, in numbers: two for each of 32 channels, three and one for each of 16 processes, three for each of 64
/// instructions of those.
const LISTS_MOST: [usize; 4] = [64, 48, 16, 3 * 64 * 16];

/// Boards, processes and channels.
#[derive(Clone, Copy, Debug, Default, PartialEq, Eq, Hash)]
pub struct Counts {
    pub boards: u32,
    pub processes: u32,
    pub channels: u32,
}

/// A table as lists of numbers: sender and reader of each channel; primary board, backup board and n of each process; in version 2 the limit
/// of each process, and in version 1 none; code, `a` and operand of each instruction, those of all processes in a row.
#[derive(Clone, Debug, Default, PartialEq, Eq, Hash)]
pub struct Lists {
    /// 1 or 2.
    pub version: u32,
    pub counts: Counts,
    pub ends: Vec<u32>,
    pub placements: Vec<u32>,
    pub limits: Vec<u32>,
    pub instructions: Vec<u32>,
}

/// What a table taken apart has beside its lists.
#[derive(Clone, Copy, Debug, PartialEq, Eq, Hash)]
pub struct Apart {
    pub version: u32,
    pub counts: Counts,
    /// How many there are.
    pub instructions: usize,
}

/// Writes the table to the front of `out` and returns its length; bytes behind it are untouched. Refused, `out` is untouched.
pub fn write_table(lists: &Lists, out: &mut [u8]) -> Result<usize, Refusal> {
    let Lists { version, counts: Counts { boards, processes, channels }, ends, placements, limits, instructions } = lists;
    let counts = [*boards, *processes, *channels];
    let result = calls::ks_table_write(*version, counts, [ends, placements, limits, instructions], out);
    Refusal::or(result, || (result >> 32) as usize)
}

/// A table taken apart: its lists are at the fronts of the four lent, that of limits in version 2 alone, and numbers behind them are untouched.
/// Refused, all four are untouched.
pub fn take_apart(
    table: &[u8],
    ends: &mut [u32],
    placements: &mut [u32],
    limits: &mut [u32],
    instructions: &mut [u32],
) -> Result<Apart, Refusal> {
    let result = calls::ks_table_apart(table, [ends, placements, limits, instructions]);
    let byte = |at: u32| (result >> at & 255) as u32;
    let counts = Counts { boards: byte(8), processes: byte(16), channels: byte(24) };
    Refusal::or(result, || Apart { version: byte(48), counts, instructions: (result >> 32 & 0xFFFF) as usize })
}

impl Lists {
    /// The table's bytes.
    pub fn table(&self) -> Result<Vec<u8>, Refusal> {
        let mut bytes = [0; TABLE_MOST];
        write_table(self, &mut bytes).map(|length| bytes[..length].to_vec())
    }

    /// The lists of a table's bytes.
    pub fn of(table: &[u8]) -> Result<Lists, Refusal> {
        let [mut ends, mut placements, mut limits, mut instructions] = LISTS_MOST.map(|most| vec![0; most]);
        let apart = take_apart(table, &mut ends, &mut placements, &mut limits, &mut instructions)?;
        let Apart { version, counts, instructions: count } = apart;
        ends.truncate(2 * counts.channels as usize);
        placements.truncate(3 * counts.processes as usize);
        limits.truncate(if version == 1 { 0 } else { counts.processes as usize });
        instructions.truncate(3 * count);
        Ok(Lists { version, counts, ends, placements, limits, instructions })
    }
}
