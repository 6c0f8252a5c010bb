//! The proved sweep against the simulator: `sweep_tests [--sweeps N] [--seed N]`, or `sweep_tests --time`, which times it and compares nothing.
//!
//! First the cases that document 02 names, at and over each limit; then random tables and schedules, with returns and resyncs in them, sound and
//! damaged, until there are N sweeps, and each ending was met at least as often as there are sweeps.
mod time;

use outside::call::ks_sweep;
use outside::options::number;
use outside::random::Random;
use outside::rules::damage::{damage_schedule, damage_table, DAMAGES};
use outside::rules::generate::{continued, encode_schedule, encode_table};
use outside::rules::reader::{Channel, Process, Record, Table, OUTSIDE};
use outside::rules::sample::{back, crash, give_back, resync, sample_schedule, step, SAMPLE};
use outside::rules::simulator::Cabinet;
use outside::rules::sweep::{sweep, Swept};
use outside::rules::tables::of_any_kind;

const SEED: u64 = 0x9E37_79B9_7F4A_7C15;
const SWEEPS: u64 = 10_000;

/// What was compared so far.
#[derive(Default)]
struct Seen {
    sweeps: u64,
    refused: u64,
    /// Sweeps of schedules with a return or a resync in them.
    mended: u64,
    endings: [u64; 3],
}

/// One sweep by both, which must be the same.
fn compare(seen: &mut Seen, kind: &str, table: &[u8], schedule: &[u8]) -> Swept {
    let wanted = sweep(table, schedule);
    let given = ks_sweep(table, schedule);
    assert_eq!(
        given,
        wanted.returned(),
        "{kind}: ks_sweep gives {given:#x}, the simulator {wanted:?}\n{table:02X?}\n{schedule:02X?}"
    );
    seen.sweeps += 1;
    if wanted.number != 0 {
        seen.refused += 1;
        return wanted;
    }
    seen.mended += u64::from(schedule[3..].chunks_exact(6).any(|record| record[0] == 6 || record[0] == 7));
    let of = [wanted.quiet, wanted.held, wanted.open];
    seen.endings.iter_mut().zip(of).for_each(|(sum, count)| *sum += count);
    wanted
}

/// A table of so many boards, of which processes use the first two.
fn spare(boards: u8) -> Vec<u8> {
    let mut table = Table::new(boards, vec![Channel { sender: OUTSIDE, reader: 0 }]);
    table.processes.push(Process::new(0, 1, Vec::new()));
    encode_table(&table)
}

/// The cases that document 02 names, by hand.
fn named(seen: &mut Seen) {
    let mut swept = |table: &[u8], records: &[Record]| compare(seen, "by hand", table, &encode_schedule(records));
    let refused = |number| Swept { number, ..Swept::default() };
    // No records: one place for each board.
    assert_eq!(swept(&SAMPLE, &[]), Swept { quiet: 2, ..Swept::default() });
    // The sample without its crash: its 20 places, by the rules' computed case for the first 13 of them.
    let unharmed: Vec<Record> = sample_schedule().into_iter().filter(|record| record.kind != 5).collect();
    let whole = swept(&SAMPLE, &unharmed);
    assert_eq!((whole.number, whole.quiet + whole.held + whole.open), (0, 2 * (unharmed.len() as u64 + 1)));
    // Boards that nothing uses count.
    assert_eq!(swept(&spare(16), &[step(0)]), Swept { quiet: 32, ..Swept::default() });
    // A record of move 5, whatever its a and word, or, W-214, of move 8; of other moves any may stand there, also one that there isn't.
    let barred = [crash(0), back()].map(|record| {
        [record, Record { a: 255, ..record }, Record { word: 1, ..record }, Record { a: 16, word: u32::MAX, ..record }]
    });
    for record in barred.into_iter().flatten() {
        assert_eq!(swept(&SAMPLE, &[step(0), record, step(0)]), refused(52), "{record:?}");
    }
    let others = [give_back(0), resync(0), Record { kind: 9, a: 0, word: 0 }, Record { kind: 0, a: 5, word: 5 }];
    assert_eq!(swept(&SAMPLE, &others).number, 0);
    // 500 and 501 records, 10,000 and 10,001.
    for (records, number) in [(500, 0), (501, 52), (10_000, 52), (10_001, 9)] {
        assert_eq!(swept(&SAMPLE, &vec![step(0); records]).number, number, "{records} records");
    }
    assert_eq!(swept(&spare(16), &[step(0); 500]), Swept { quiet: 8_016, ..Swept::default() });
    // "after 10": the version first, and everything of the table before it.
    let mut schedule = encode_schedule(&[crash(0)]);
    schedule[2] = 2;
    assert_eq!(compare(seen, "by hand", &SAMPLE, &schedule), refused(10));
    let mut broken = SAMPLE.to_vec();
    broken[2] = 3;
    assert_eq!(compare(seen, "by hand", &broken, &schedule), refused(2));
}

/// A sound table, and a schedule of it with no crash: most of its records suit the cabinet as it is without one, and some suit it after one.
fn random_sweep(seen: &mut Seen, random: &mut Random) {
    let made = of_any_kind(random);
    let length = random.pick(&[0, 1, 5, 20, 40, 80]);
    let mut records = continued(random, &made, Cabinet::new(&made), length);
    // A move 8 would refuse the sweep: one in some may.
    if !random.once_in(10) {
        records.retain(|record| record.kind != 8);
    }
    for _ in 0..random.below(6) {
        // The board that was pulled comes back, and its processes get a backup.
        let at = random.below(records.len() as u32 + 1) as usize;
        let mend = match random.once_in(2) {
            true => give_back(random.below(made.boards as u32) as u8),
            false => resync(random.below(made.processes.len() as u32) as u8),
        };
        records.insert(at, mend);
    }
    let (table, schedule) = (encode_table(&made), encode_schedule(&records));
    compare(seen, "random", &table, &schedule);
    if random.once_in(4) {
        let (one, other) = (random.pick(&DAMAGES), random.pick(&DAMAGES));
        let damaged = damage_schedule(random, schedule.clone(), one);
        compare(seen, "damaged schedule", &table, &damaged);
        let damaged = damage_table(random, table, other);
        compare(seen, "damaged table", &damaged, &schedule);
    }
}

fn main() {
    if std::env::args().nth(1).as_deref() == Some("--time") {
        return time::print();
    }
    let sweeps = number("--sweeps").unwrap_or(SWEEPS);
    let seed = number("--seed").unwrap_or(SEED);
    println!("sweep: {sweeps} sweeps or more, seed {seed}");
    let (mut seen, mut random) = (Seen::default(), Random::new(seed));
    named(&mut seen);
    while seen.sweeps < sweeps || seen.mended < sweeps / 2 || seen.endings.iter().any(|&runs| runs < sweeps) {
        random_sweep(&mut seen, &mut random);
    }
    let Seen { sweeps, refused, mended, endings: [quiet, held, open] } = seen;
    println!("sweep: {refused} refused; {mended} with a return or a resync; runs: {quiet} quiet, {held} with hold-back left, {open} with none");
    println!("sweep: ok, {sweeps} sweeps, every number and every count as by the simulator");
}
