//! One run by the proved call and by the simulator, compared: the number returned, every byte of the lent buffers, and bytes on both
//! sides of them which were not lent.
use crate::seen::Seen;
use outside::call::ks_run;
use outside::random::Random;
use outside::rules::lent::{Lent, NAMES, PIECES};
use outside::rules::reader::record;
use outside::rules::run::{run, Run};

/// How many bytes on each side of a buffer are not lent.
const MARGIN: usize = 32;

pub struct Comparison {
    /// For what lies in buffers before a run.
    filler: Random,
    pub seen: Seen,
}

/// Any bytes, `length` of them lent, and a margin on either side.
fn filled(random: &mut Random, length: usize) -> Vec<u8> {
    let mut bytes = Vec::with_capacity(length + 2 * MARGIN + 4);
    while bytes.len() < length + 2 * MARGIN {
        bytes.extend(random.word().to_ne_bytes());
    }
    bytes.truncate(length + 2 * MARGIN);
    bytes
}

fn lent(bytes: &mut [u8]) -> &mut [u8] {
    let end = bytes.len() - MARGIN;
    &mut bytes[MARGIN..end]
}

/// The input with other bytes right before and after it, which must not matter.
fn surrounded(random: &mut Random, input: &[u8]) -> Vec<u8> {
    let mut bytes = filled(random, input.len());
    lent(&mut bytes).copy_from_slice(input);
    bytes
}

impl Comparison {
    pub fn new(seed: u64) -> Comparison {
        Comparison { filler: Random::new((seed ^ 0x5555_5555) | 1), seen: Seen::default() }
    }

    /// One run by both with buffers of these lengths; all differences end the program.
    pub fn run(&mut self, kind: &'static str, table: &[u8], schedule: &[u8], buffers: Lent<usize>) -> Run {
        let wanted = run(table, schedule, buffers);
        let mut given = [surrounded(&mut self.filler, table), surrounded(&mut self.filler, schedule)];
        let before = buffers.map(|length| filled(&mut self.filler, length));
        let mut after = before.clone();
        let [given_table, given_schedule] = &mut given;
        let number = ks_run(lent(given_table), lent(given_schedule), after.each_mut().map(|bytes| lent(bytes)));

        // What a refused run may write is nothing, and an accepted one writes its answers, its reasons, its report and its origins.
        let written = wanted.outcome.written(table.get(4).map_or(0, |&processes| processes as usize));
        let expected = before.with(wanted.lent.each().with(written)).map(|(mut bytes, (wanted, n))| {
            lent(&mut bytes)[..n].copy_from_slice(&wanted[..n]);
            bytes
        });
        self.seen.runs += 1;
        if number != wanted.outcome.returned() || after != expected {
            println!("{kind}, run {}, {buffers:?}", self.seen.runs);
            println!("table {}\nschedule {}", hex(table), hex(schedule));
            println!("returned {number:#x}, by the simulator {:#x} ({:?})", wanted.outcome.returned(), wanted.outcome);
            for ((name, piece), (bytes, expected)) in NAMES.with(PIECES).with(after.with(expected)).list() {
                differences(name, piece, &bytes, &expected);
            }
            println!("cabinet: FAILED after {} runs", self.seen.runs);
            std::process::exit(1);
        }
        self.seen.count(kind, table, schedule, &wanted);
        wanted
    }
}

/// The first piece that differs, if any does: of the margin before, of the lent bytes, or of the margin after.
fn differences(name: &str, piece: usize, bytes: &[u8], expected: &[u8]) {
    let Some(at) = (0..bytes.len()).find(|&i| bytes[i] != expected[i]) else { return };
    if at < MARGIN || at >= bytes.len() - MARGIN {
        println!("{name}: a byte that was not lent is changed");
        return;
    }
    let i = (at - MARGIN) / piece;
    let range = MARGIN + piece * i..(MARGIN + piece * (i + 1)).min(bytes.len() - MARGIN);
    println!("{name} {i} (from 0): {:?}, by the simulator {:?}", &bytes[range.clone()], &expected[range.clone()]);
    if piece == 6 && range.len() == 6 {
        let [ours, theirs] = [record(&bytes[range.clone()]), record(&expected[range])];
        println!("  {} {} {}, by the simulator {} {} {}", ours.kind, ours.a, ours.word, theirs.kind, theirs.a, theirs.word);
    }
}

fn hex(bytes: &[u8]) -> String {
    bytes.iter().map(|byte| format!("{byte:02X}")).collect::<Vec<_>>().join(" ")
}
