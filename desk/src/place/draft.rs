//! A table as it was said, sound or not, as far as it can be told apart.
use kunzeastylus::Lists;

/// A process as it was said.
#[derive(Clone, Debug, PartialEq, Eq)]
pub struct Process {
    pub primary: u32,
    pub backup: u32,
    pub limit: Option<u32>,
    pub n: u32,
    /// Code, `a` and operand.
    pub instructions: Vec<[u32; 3]>,
}

/// A table as it was said.
#[derive(Clone, Debug, PartialEq, Eq)]
pub struct Draft {
    pub boards: u32,
    pub processes: u32,
    pub channels: u32,
    /// Sender and reader.
    pub ends: Vec<[u32; 2]>,
    pub programs: Vec<Process>,
}

/// The byte, or 0 behind the end.
pub(super) fn byte(table: &[u8], at: usize) -> usize {
    table.get(at).copied().unwrap_or(0).into()
}

/// How many bytes a process record has before its instructions.
pub(super) fn head(table: &[u8]) -> usize {
    if byte(table, 2) == 2 {
        4
    } else {
        3
    }
}

/// Where the record of a process begins.
pub(super) fn record(table: &[u8], process: usize) -> usize {
    let head = head(table);
    (0..process).fold(6 + 2 * byte(table, 5), |at, _| at + head + 6 * byte(table, at + head - 1))
}

impl Draft {
    /// Of bytes; what lies behind their end is 0.
    pub fn of_bytes(table: &[u8]) -> Draft {
        let number = |at: usize| byte(table, at) as u32;
        let word = |at: usize| (at..at + 4).fold(0, |word, at| word << 8 | number(at));
        let head = head(table);
        let program = |p: usize| {
            let at = record(table, p);
            let n = number(at + head - 1);
            let instruction = |i: usize| {
                let at = at + head + 6 * i;
                [number(at), number(at + 1), word(at + 2)]
            };
            Process {
                primary: number(at),
                backup: number(at + 1),
                limit: (head == 4).then(|| number(at + 2)),
                n,
                instructions: (0..n as usize).map(instruction).collect(),
            }
        };
        Draft {
            boards: number(3),
            processes: number(4),
            channels: number(5),
            ends: (0..byte(table, 5)).map(|k| [number(6 + 2 * k), number(7 + 2 * k)]).collect(),
            programs: (0..byte(table, 4)).map(program).collect(),
        }
    }

    /// Of lists, as far as they go.
    pub fn of_lists(lists: &Lists) -> Draft {
        let mut rest = lists.instructions.chunks_exact(3).map(|i| [i[0], i[1], i[2]]);
        let program = |(p, placement): (usize, &[u32])| Process {
            primary: placement[0],
            backup: placement[1],
            limit: lists.limits.get(p).copied(),
            n: placement[2],
            instructions: rest.by_ref().take(placement[2] as usize).collect(),
        };
        Draft {
            boards: lists.counts.boards,
            processes: lists.counts.processes,
            channels: lists.counts.channels,
            ends: lists.ends.chunks_exact(2).map(|pair| [pair[0], pair[1]]).collect(),
            programs: lists.placements.chunks_exact(3).enumerate().map(program).collect(),
        }
    }
}
