//! The proved judging of tables, schedules and buffers against the reader: `table_tests [--runs N] [--seed N] [--all-met]`.
//!
//! Document 01's sample, in either version, with every length field, every change of one byte and every shorter length; then random tables and schedules,
//! sound and damaged, with buffers of lengths around what is enough, and with each set of them one byte under it.

use outside::call::ks_judge;
use outside::met::all_met;
use outside::options::number;
use outside::random::Random;
use outside::rules::damage::{damage_schedule, damage_table, Damage, DAMAGES};
use outside::rules::generate::{encode_schedule, encode_table, largest, schedule, table};
use outside::rules::lent::{Lent, BUFFERS};
use outside::rules::reader::{judge_run, judge_table};
use outside::rules::sample::{sample_schedule, SAMPLE};

const SEED: u64 = 0xD1B5_4A32_D192_ED03;
const RUNS: u32 = 300_000;

/// The numbers of a run: 0, and the refusals.
const NUMBERS: [u8; 15] = [0, 1, 2, 3, 4, 5, 6, 7, 8, 47, 9, 10, 11, 12, 51];

/// How often each kind of input was given each number, in the order of `NUMBERS`.
struct Seen(Vec<(String, [u32; NUMBERS.len()])>);

impl Seen {
    /// One judgement by both, counted under its kind.
    fn compare(&mut self, kind: &str, table: &[u8], schedule: &[u8], buffers: Lent<usize>) {
        let wanted = judge_run(table, schedule, buffers).err().unwrap_or(0);
        let number = ks_judge(table, schedule, buffers);
        if number != wanted as u32 {
            println!("{kind}: judged {number}, {wanted} by the reader, with {buffers:?}");
            println!("table {}\nschedule {}", hex(table), hex(schedule));
            println!("table: FAILED");
            std::process::exit(1);
        }
        let at = NUMBERS.iter().position(|&number| number == wanted).expect("a number of a run");
        match self.0.iter_mut().find(|(name, _)| name == kind) {
            Some((_, row)) => row[at] += 1,
            None => {
                let mut row = [0; NUMBERS.len()];
                row[at] = 1;
                self.0.push((kind.to_string(), row));
            }
        }
    }

    /// Prints all counts; false if a number was never seen.
    fn report(&self) -> bool {
        let print = |name: &str, row: &[u32; NUMBERS.len()]| {
            print!("{name:>20}");
            row.iter().for_each(|n| print!("{n:>8}"));
            println!("{:>9}", row.iter().sum::<u32>());
        };
        let mut all = [0; NUMBERS.len()];
        self.0.iter().for_each(|(_, row)| (0..row.len()).for_each(|n| all[n] += row[n]));
        print!("{:>20}", "");
        NUMBERS.iter().for_each(|n| print!("{n:>8}"));
        println!("{:>9}", "all");
        self.0.iter().for_each(|(name, row)| print(name, row));
        print("all", &all);
        let missing: Vec<u8> = (0..all.len()).filter(|&n| all[n] == 0).map(|n| NUMBERS[n]).collect();
        missing.iter().for_each(|n| println!("no run was given {n}"));
        missing.is_empty()
    }
}

fn hex(bytes: &[u8]) -> String {
    bytes.iter().map(|byte| format!("{byte:02X}")).collect::<Vec<_>>().join(" ")
}

/// The same bytes with every length field, with every value of each byte, and cut or lengthened to every length up to twice their own.
fn variants(bytes: &[u8], mut each: impl FnMut(&str, &[u8])) {
    let mut changed = bytes.to_vec();
    for field in 0..=u16::MAX {
        changed[..2].copy_from_slice(&field.to_be_bytes());
        each("length field", &changed);
    }
    changed.copy_from_slice(bytes);
    for at in 0..bytes.len() {
        for byte in 0..=u8::MAX {
            changed[at] = byte;
            each("one byte", &changed);
        }
        changed[at] = bytes[at];
    }
    for length in 0..=2 * bytes.len() {
        changed.clear();
        changed.extend(bytes.iter().copied().chain(std::iter::repeat(0)).take(length));
        each("length", &changed);
    }
}

/// Document 01's sample, all variants of its table, in either version, and of its schedule.
fn sample(seen: &mut Seen) {
    let schedule = encode_schedule(&sample_schedule());
    let limited = judge_table(&SAMPLE).expect("the sample").limited(|_| 2);
    variants(&SAMPLE, |kind, table| seen.compare(&format!("sample {kind}"), table, &schedule, Lent::needed(20, 1)));
    variants(&encode_table(&limited), |kind, table| {
        seen.compare(&format!("limited {kind}"), table, &schedule, Lent::needed(20, 1))
    });
    variants(&schedule, |kind, schedule| seen.compare(&format!("sample {kind}"), &SAMPLE, schedule, Lent::needed(41, 1)));
}

/// A buffer's length where `enough` are needed.
fn buffer(random: &mut Random, enough: usize) -> usize {
    let some = random.below(enough as u32 + 100) as usize;
    let lengths = [enough, enough + 1, enough.saturating_sub(1), 0, enough / 2, 2 * enough, some, usize::MAX, usize::MAX / 6];
    random.pick(&lengths)
}

/// A sound table and schedule, then the same with each kind of damage to one of them or to both.
fn round(random: &mut Random, seen: &mut Seen) {
    let sound = if random.once_in(100) { largest(random) } else { table(random) };
    let records = random.pick(&[0, 1, 5, 30]);
    let (sound, records) = (encode_table(&sound), schedule(random, &sound, records));
    let needed = Lent::needed(records.len(), sound[4] as usize);
    let records = encode_schedule(&records);
    for how in DAMAGES {
        let table = damage_table(random, sound.clone(), how);
        let schedule = damage_schedule(random, records.clone(), how);
        let enough = Lent::needed(10_002, 20);
        let others = needed.map(|needed| buffer(random, needed));
        if how == Damage::None {
            seen.compare("sound", &sound, &records, enough);
            seen.compare("buffers", &sound, &records, others);
            seen.compare("answers' buffer", &sound, &records, Lent { answers: others.answers, ..needed });
            seen.compare("reasons' buffer", &sound, &records, Lent { reasons: others.reasons, ..needed });
            seen.compare("report's buffer", &sound, &records, Lent { report: others.report, ..needed });
            seen.compare("origins' buffer", &sound, &records, Lent { origins: others.origins, ..needed });
            needed.shortened().for_each(|short| seen.compare("a byte under", &sound, &records, short));
        } else {
            seen.compare(&format!("table {how:?}"), &table, &records, enough);
            seen.compare(&format!("schedule {how:?}"), &sound, &schedule, enough);
            seen.compare("both", &table, &schedule, others);
        }
    }
}

fn main() {
    let runs = number("--runs").map_or(RUNS, |runs| runs as u32);
    let seed = number("--seed").unwrap_or(SEED);
    println!("table: {runs} random tables and schedules, seed {seed}");
    let mut random = Random::new(seed);
    let mut seen = Seen(Vec::new());
    sample(&mut seen);
    let each = 6 + (1 << BUFFERS) + 3 * (DAMAGES.len() as u32 - 1);
    (0..runs.div_ceil(each)).for_each(|_| round(&mut random, &mut seen));
    all_met("table", seen.report());
    println!("table: ok, every number as by the reader");
}
