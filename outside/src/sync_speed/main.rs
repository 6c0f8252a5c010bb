//! How long a sync of the backup record takes, in place, on lent numbers (`ks_backup_sync`) and by value, beside a plain one in Rust:
//! `sync_speed [--repetitions N] [--seed N] [--row N]`. `tools/sync-speed` builds what it links.
//!
//! Each repetition makes all records anew, so that no branch can be learnt, and calls the four in turn on the same records in one process,
//! each order as often as any other. The replies and the records afterwards are compared.
mod plain;

use kunzeastylus::sys::ks_backup_sync;
use outside::options::number;
use outside::random::Random;
use plain::{Checkpoint, Record, Saved};
use std::time::Instant;

const SEED: u64 = 0xA076_1D64_78BD_642F;
const REPETITIONS: u64 = 2000;
const RECORDS: usize = 64;

/// In place 0, plain 1, by value 2, lent 3. Whoever comes after by value finds its records out of the nearest cache.
const KINDS: usize = 4;

/// The orders of the four, one after the other.
fn order(i: u64) -> [usize; KINDS] {
    let mut left = vec![0, 1, 2, 3];
    let mut rest = i as usize;
    [4, 3, 2, 1].map(|n| {
        let at = rest % n;
        rest /= n;
        left.remove(at)
    })
}

/// Saved words at most; a head in place, and one that is lent or by value: length, count, place and registers, and in place also the words on
/// each slot.
const LOG: usize = 64;
const HEAD: usize = 11;
const SHORT: usize = 7;

type Reply = [u32; 9];

#[link(name = "sync_in_place", kind = "static")]
extern "C" {
    fn sync_log() -> usize;
    fn sync_in_place(log: &mut [u64; LOG], head: &mut [u32; HEAD], checkpoint: &[u32; 9], reply: &mut Reply);
}

#[link(name = "sync_by_value", kind = "static")]
extern "C" {
    fn sync_by_value(log: &mut [u64; LOG], head: &mut [u32; SHORT], checkpoint: &[u32; 9], reply: &mut Reply);
}

/// Which words were taken.
#[derive(Clone, Copy)]
enum Taken {
    Oldest(usize),
    Anywhere(usize),
}

struct Row {
    saved: usize,
    taken: Taken,
}

const fn row(saved: usize, taken: Taken) -> Row {
    Row { saved, taken }
}

const ROWS: [Row; 13] = [
    row(0, Taken::Oldest(0)),
    row(8, Taken::Oldest(0)),
    row(24, Taken::Oldest(0)),
    row(48, Taken::Oldest(0)),
    row(8, Taken::Oldest(8)),
    row(24, Taken::Oldest(8)),
    row(48, Taken::Oldest(8)),
    row(24, Taken::Anywhere(8)),
    row(48, Taken::Anywhere(8)),
    row(48, Taken::Oldest(40)),
    row(48, Taken::Anywhere(40)),
    row(24, Taken::Oldest(24)),
    row(48, Taken::Oldest(48)),
];

impl Row {
    fn name(&self) -> String {
        match self.taken {
            Taken::Oldest(n) if n == 0 || n == self.saved => format!("{}", n),
            Taken::Oldest(n) => format!("{n}, in order"),
            Taken::Anywhere(n) => format!("{n}, mixed"),
        }
    }
}

/// A record and the checkpoint that lands on it: in place but for its log, plain, by value and lent.
struct InPlace {
    head: [u32; HEAD],
    checkpoint: [u32; 9],
    reply: Reply,
}

struct Plain {
    record: Record,
    checkpoint: Checkpoint,
    reply: Reply,
}

struct ByValue {
    log: [u64; LOG],
    head: [u32; SHORT],
    checkpoint: [u32; 9],
    reply: Reply,
}

struct Lent {
    saved: [u64; LOG],
    head: [u32; SHORT],
    place: u32,
    registers: [u32; 4],
    taken: [u32; 4],
    number: u32,
    report: [u32; 8],
}

/// The same records four times, each kind by itself. Logs in place stand together, as the cabinet has them, and as the plain record's stand
/// apart from it.
struct Samples {
    logs: Vec<[u64; LOG]>,
    in_place: Vec<InPlace>,
    plain: Vec<Plain>,
    by_value: Vec<ByValue>,
    lent: Vec<Lent>,
}

/// How many of these slots are 0, 1, 2 and 3.
fn on(slots: &[u8]) -> [u32; 4] {
    [0, 1, 2, 3].map(|slot| slots.iter().filter(|&&other| other == slot).count() as u32)
}

fn one(random: &mut Random, row: &Row) -> ([u64; LOG], InPlace, Plain, ByValue, Lent) {
    let slots: Vec<u8> = (0..row.saved).map(|_| random.below(4) as u8).collect();
    let saved: Vec<Saved> = slots.iter().map(|&slot| Saved { word: random.word(), slot }).collect();
    let mut chosen = slots.clone();
    let n = match row.taken {
        Taken::Oldest(n) => n,
        Taken::Anywhere(n) => {
            (0..n).for_each(|i| chosen.swap(i, i + random.below((row.saved - i) as u32) as usize));
            n
        }
    };
    let taken = on(&chosen[..n]);
    let [count, place, registers @ ..] = [0; 6].map(|_| random.below(17));
    let mut log = [0; LOG];
    log.iter_mut().zip(&saved).for_each(|(number, saved)| *number = packed(saved));
    let mut head = [0; HEAD];
    head[..SHORT].copy_from_slice(&[row.saved as u32, count, place, 1, 2, 3, 4]);
    head[SHORT..].copy_from_slice(&on(&slots));
    let mut checkpoint = [0; 9];
    checkpoint[0] = place;
    checkpoint[1..5].copy_from_slice(&registers);
    checkpoint[5..].copy_from_slice(&taken);
    let reply = [0; 9];
    let short = [row.saved as u32, count, place, 1, 2, 3, 4];
    let record = Record { saved, on: on(&slots), registers: [1, 2, 3, 4], place, count };
    (
        log,
        InPlace { head, checkpoint, reply },
        Plain { record, checkpoint: Checkpoint { place, registers, taken }, reply },
        ByValue { log, head: short, checkpoint, reply },
        Lent { saved: log, head: short, place, registers, taken, number: 0, report: [0; 8] },
    )
}

/// A saved word as one number.
fn packed(saved: &Saved) -> u64 {
    (saved.slot as u64) << 32 | saved.word as u64
}

impl Samples {
    fn new(random: &mut Random, row: &Row) -> Samples {
        let mut samples =
            Samples { logs: Vec::new(), in_place: Vec::new(), plain: Vec::new(), by_value: Vec::new(), lent: Vec::new() };
        for _ in 0..RECORDS {
            let (log, in_place, plain, by_value, lent) = one(random, row);
            samples.logs.push(log);
            samples.in_place.push(in_place);
            samples.plain.push(plain);
            samples.by_value.push(by_value);
            samples.lent.push(lent);
        }
        samples
    }

    fn check(&self) {
        for (((log, ours), plain), value) in self.logs.iter().zip(&self.in_place).zip(&self.plain).zip(&self.by_value) {
            let record = &plain.record;
            let saved: Vec<u64> = record.saved.iter().map(packed).collect();
            let mut head = vec![saved.len() as u32, record.count, record.place];
            head.extend(record.registers);
            assert!(log[..saved.len()] == saved[..] && value.log[..saved.len()] == saved[..], "the saved words differ");
            assert!(ours.head[..SHORT] == head[..] && value.head[..] == head[..], "the heads differ");
            assert!(ours.head[SHORT..] == record.on, "the words on each slot differ");
            assert!(ours.reply == plain.reply && value.reply == plain.reply, "the replies differ");
        }
        for (value, lent) in self.by_value.iter().zip(&self.lent) {
            let saved = value.head[0] as usize;
            assert!(lent.saved[..saved] == value.log[..saved] && lent.head == value.head, "the lent records differ");
            assert!(lent.number == value.reply[0] && lent.report == value.reply[1..], "the lent replies differ");
        }
    }

    /// All records once, by one of the four, in nanoseconds.
    fn turn(&mut self, who: usize) -> u64 {
        let start = Instant::now();
        match who {
            0 => self
                .logs
                .iter_mut()
                .zip(&mut self.in_place)
                .for_each(|(log, s)| unsafe { sync_in_place(log, &mut s.head, &s.checkpoint, &mut s.reply) }),
            1 => self.plain.iter_mut().for_each(|s| sync_plain(&mut s.record, &s.checkpoint, &mut s.reply)),
            2 => self
                .by_value
                .iter_mut()
                .for_each(|s| unsafe { sync_by_value(&mut s.log, &mut s.head, &s.checkpoint, &mut s.reply) }),
            _ => self.lent.iter_mut().for_each(|s| {
                s.number = unsafe { ks_backup_sync(&mut s.saved, &mut s.head, s.place, &s.registers, &s.taken, &mut s.report) }
            }),
        }
        start.elapsed().as_nanos() as u64
    }
}

#[inline(never)]
fn sync_plain(record: &mut Record, checkpoint: &Checkpoint, reply: &mut Reply) {
    match record.sync(checkpoint) {
        Ok(report) => {
            reply[0] = 0;
            reply[1..5].copy_from_slice(&report.dropped);
            reply[5..].copy_from_slice(&report.remaining);
        }
        Err(number) => *reply = [number as u32, 0, 0, 0, 0, 0, 0, 0, 0],
    }
}

/// The least time and the median of each of the four; the first repetitions are not counted.
fn time(random: &mut Random, row: &Row, repetitions: u64) -> [[f64; 2]; KINDS] {
    let mut times: [Vec<u64>; KINDS] = Default::default();
    for i in 0..repetitions + 10 {
        let mut samples = Samples::new(random, row);
        for who in order(i) {
            let took = samples.turn(who);
            if i >= 10 {
                times[who].push(took);
            }
        }
        samples.check();
    }
    times.map(|mut times| {
        times.sort_unstable();
        [times[0], times[times.len() / 2]].map(|time| time as f64 / RECORDS as f64)
    })
}

fn main() {
    assert!(unsafe { sync_log() } == LOG, "the record's size is another");
    let repetitions = number("--repetitions").unwrap_or(REPETITIONS).max(1);
    let seed = number("--seed").unwrap_or(SEED);
    let only = number("--row");
    println!(
        "nanoseconds a sync, the quickest (and the median) of {repetitions} repetitions over {RECORDS} records, seed {seed}"
    );
    println!(
        "{:>5} | {:<12}|{:>16} |{:>16} |{:>16} |{:>16} | in place to plain",
        "saved", "taken", "in place", "plain", "lent", "by value"
    );
    for (i, row) in ROWS.iter().enumerate().filter(|(i, _)| only.is_none_or(|only| only == *i as u64)) {
        let [ours, plain, value, lent] = time(&mut Random::new(seed + i as u64), row, repetitions);
        let pair = |[least, median]: [f64; 2]| format!("{least:.1} ({median:.1})");
        println!(
            "{:>5} | {:<12}|{:>16} |{:>16} |{:>16} |{:>16} |{:>6.2} ({:.2})",
            row.saved,
            row.name(),
            pair(ours),
            pair(plain),
            pair(lent),
            pair(value),
            ours[0] / plain[0],
            ours[1] / plain[1]
        );
    }
}
