//! The runs that are timed: a table, and 10,000 records drawn by a mix's weights and tried on the simulator. Of those refused one in so many
//! is kept.
use crate::tables::{checksums, firsts, lines, readers, senders};
use outside::random::Random;
use outside::rules::generate::{any_word, encode_schedule, encode_table};
use outside::rules::line;
use outside::rules::reader::{Record, Table, OUTSIDE};
use outside::rules::repairs::bare;
use outside::rules::sample::crash;
use outside::rules::simulator::Cabinet;

pub const RECORDS: usize = 10_000;

/// How a run to be timed is drawn.
pub struct Mix {
    pub name: &'static str,
    table: Table,
    /// How often each move is tried, of all together.
    weights: [u32; 7],
    /// A board is pulled after half of the records.
    pulled: bool,
    /// One refused record in so many is kept.
    kept: u32,
}

/// A run to be timed: the share of steps, syncs, carries, feeds and other moves among its records, and of those not refused, in percent.
pub struct Input {
    pub name: &'static str,
    pub processes: usize,
    pub table: Vec<u8>,
    pub schedule: Vec<u8>,
    pub moves: [f64; 5],
    pub accepted: f64,
}

impl Input {
    pub fn records(&self) -> usize {
        self.schedule.len() / 6
    }
}

/// A move by the weights, from 1 on.
fn some_move(random: &mut Random, weights: &[u32]) -> u8 {
    let mut at = random.below(weights.iter().sum());
    let mut kind = 1;
    for &weight in weights {
        if at < weight {
            break;
        }
        at -= weight;
        kind += 1;
    }
    kind
}

/// A record with this move: a return of a dead board and a resync of a process without a backup, where there is one.
fn record(random: &mut Random, table: &Table, cabinet: &Cabinet, kind: u8) -> Record {
    let processes: Vec<u8> = (0..table.processes.len() as u8).collect();
    let boards: Vec<u8> = (0..table.boards).collect();
    let among = match kind {
        3 | 5 => boards,
        4 => table.sends(OUTSIDE as usize).collect(),
        6 => boards.into_iter().filter(|&board| cabinet.dead(board)).collect(),
        7 => bare(cabinet),
        _ => processes,
    };
    let a = if among.is_empty() { 0 } else { random.pick(&among) };
    Record { kind, a, word: if kind == 4 { any_word(random) } else { 0 } }
}

impl Mix {
    fn new(name: &'static str, table: Table, [step, sync, carry, feed]: [u32; 4]) -> Mix {
        Mix { name, table, weights: [step, sync, carry, feed, 0, 0, 0], pulled: false, kept: 40 }
    }

    /// A run of so many records.
    pub fn draw(&self, random: &mut Random, many: usize) -> Input {
        let mut cabinet = Cabinet::new(&self.table);
        let mut records = Vec::with_capacity(many);
        let mut accepted = 0;
        while records.len() < many {
            let record = match self.pulled && records.len() == many / 2 {
                true => crash(3),
                false => {
                    let kind = some_move(random, &self.weights);
                    record(random, &self.table, &cabinet, kind)
                }
            };
            let done = cabinet.answer(record).code < 32;
            accepted += done as usize;
            if done || random.once_in(self.kept) {
                records.push(record);
            }
        }
        let percent = |n: usize| 100.0 * n as f64 / many as f64;
        let share = |kinds: std::ops::RangeInclusive<u8>| percent(records.iter().filter(|r| kinds.contains(&r.kind)).count());
        Input {
            name: self.name,
            processes: self.table.processes.len(),
            table: encode_table(&self.table),
            schedule: encode_schedule(&records),
            moves: [share(1..=1), share(2..=2), share(3..=3), share(4..=4), share(5..=7)],
            accepted: percent(accepted),
        }
    }
}

/// The mixes of which the ratio is claimed: 16 processes, and most records not refused.
pub fn claimed() -> Vec<Mix> {
    vec![
        Mix::new("steps mostly", lines(20), [80, 2, 10, 2]),
        Mix::new("carries mostly", senders(), [40, 5, 60, 0]),
        Mix::new("syncs often", lines(0), [40, 40, 40, 4]),
        Mix::new("feeds, full inboxes", readers(), [40, 4, 20, 80]),
        Mix { pulled: true, ..Mix::new("a crash in the middle", lines(0), [60, 6, 30, 6]) },
        Mix::new("the even mix", lines(0), [1, 1, 1, 1]),
        // W-204
        Mix::new("long calculations", checksums(), [130, 3, 5, 3]),
        // W-207: scanners sync every 2 acts, the others every 16.
        Mix::new("limits 2 and 16", lines(0).limited(|p| if p % 4 == 0 { 2 } else { 16 }), [50, 12, 35, 5]),
        Mix::new("sixteen FIRSTs, full inboxes", firsts(), [40, 2, 3, 80]),
        // W-210
        Mix { weights: [600, 60, 300, 60, 3, 30, 60], ..Mix::new("returns and resyncs now and then", lines(0), [0; 4]) },
    ]
}

/// Others, timed for their figures alone: a table with two processes, and records that are refused mostly.
pub fn others() -> Vec<Mix> {
    vec![
        Mix::new("the label line", line::table(1), [50, 6, 30, 6]),
        Mix { kept: 1, ..Mix::new("refused mostly", lines(0), [10, 60, 120, 60]) },
    ]
}
