//! The proved view of the whole cabinet against the simulator's: `view_tests [--runs N] [--seed N]`, or `view_tests --time`, which times a call and compares
//! nothing.
//!
//! After every record of generated runs, with crashes, returns, resyncs and back keys in them, number for number; after a back that takes a
//! record back, the view before that record. Then refused ones, and lists too short and too long: what isn't written stays.
use outside::call::ks_view;
use outside::met::all_met;
use outside::options::number;
use outside::random::Random;
use outside::rules::damage::{damage_schedule, damage_table, DAMAGES};
use outside::rules::generate::{encode_schedule, encode_table, largest, schedule};
use outside::rules::going_back::going_back;
use outside::rules::reader::{Record, Table};
use outside::rules::repairs::{crash_after_crash, mended, row};
use outside::rules::sample::{sample_schedule, SAMPLE};
use outside::rules::session::{Session, BACK};
use outside::rules::tables::of_any_kind;
use outside::rules::view::{view_into, VIEW};
use std::time::Instant;

const SEED: u64 = 0xD1B5_4A32_D192_ED03;
const RUNS: u64 = 400;
/// What stands in a lent list before.
const BEFORE: u32 = 0xDEAD_BEEF;

/// What was compared so far.
#[derive(Default)]
struct Seen {
    runs: u64,
    views: u64,
    refused: u64,
    /// Records by their move, done: crashes, returns, resyncs, backs.
    done: [u64; 4],
    /// Backups that are being made, and entries of each kind at the front of a queue.
    making: u64,
    fronts: [u64; 3],
}

/// Where a view has them.
fn backup_state(view: &[u32], p: usize) -> u32 {
    view[3 + 279 * p + 142]
}

fn front_kind(view: &[u32], board: usize) -> u32 {
    view[4_467 + 418 * board + 2]
}

impl Seen {
    fn view(&mut self, view: &[u32]) {
        self.views += 1;
        self.making += (0..16).filter(|&p| backup_state(view, p) == 2).count() as u64;
        for board in 0..16 {
            if let kind @ 1.. = front_kind(view, board) {
                self.fronts[kind as usize - 1] += 1;
            }
        }
    }

    fn met(&self) -> bool {
        self.done.iter().chain(&self.fronts).all(|&count| count > 0) && self.making > 0 && self.refused > 0
    }
}

fn difference(given: &[u32], wanted: &[u32]) -> String {
    match given.iter().zip(wanted).position(|(ours, theirs)| ours != theirs) {
        Some(at) => format!("number {at}: {} for {}", given[at], wanted[at]),
        None => "none".to_string(),
    }
}

/// The views of both after every record of a schedule.
fn compare_all(seen: &mut Seen, kind: &str, table: &Table, records: &[Record]) {
    let bytes = encode_table(table);
    let mut session = Session::new(table);
    // Before each record that stands.
    let mut before: Vec<Vec<u32>> = Vec::new();
    let mut last = session.cabinet.view();
    for n in 0..=records.len() {
        let mut given = vec![BEFORE; VIEW + 3];
        let number = ks_view(&bytes, &encode_schedule(&records[..n]), &mut given);
        let wanted = session.cabinet.view();
        assert!(
            number == 0 && given[..VIEW] == wanted,
            "{kind}: after {n} records, {number}, {}\n{bytes:02X?}\n{records:?}",
            difference(&given, &wanted)
        );
        assert_eq!(given[VIEW..], [BEFORE; 3], "{kind}: numbers beyond the view");
        given.truncate(VIEW);
        if n > 0 && records[n - 1].kind == BACK {
            assert_eq!(given, last, "{kind}: after record {n}, a back");
        }
        seen.view(&given);
        let Some(&record) = records.get(n) else { break };
        let code = session.answer(record).code;
        match record.kind {
            // Taken back, the whole view is the one before that record; a back that is refused leaves the one that stands.
            BACK if code == 7 => last = before.pop().expect("a record that is taken back"),
            BACK => last = given,
            _ => before.push(given),
        }
        if let Some(i) = [5, 6, 7, BACK].iter().position(|&kind| kind == record.kind) {
            seen.done[i] += u64::from(code < 32);
        }
    }
    seen.runs += 1;
}

/// One view of any bytes, to a list of any length, by both: the same number, and the same list afterwards.
fn compare_bytes(seen: &mut Seen, kind: &str, table: &[u8], schedule: &[u8], length: usize) {
    let (mut given, mut wanted) = (vec![BEFORE; length], vec![BEFORE; length]);
    let number = ks_view(table, schedule, &mut given);
    assert_eq!(number, view_into(table, schedule, &mut wanted), "{kind}: the number\n{table:02X?}\n{schedule:02X?}");
    assert!(given == wanted, "{kind}: {}\n{table:02X?}\n{schedule:02X?}", difference(&given, &wanted));
    seen.refused += u64::from(number != 0);
}

fn lengths(seen: &mut Seen) {
    let sample = encode_schedule(&sample_schedule());
    for length in [0, 1, 3, VIEW - 1, VIEW, VIEW + 1] {
        compare_bytes(seen, "by hand", &SAMPLE, &sample, length);
        // Of a table or a schedule that is refused, its own number comes first.
        compare_bytes(seen, "by hand", &SAMPLE[..20], &sample, length);
        compare_bytes(seen, "by hand", &SAMPLE, &sample[..20], length);
    }
    let mut short = vec![BEFORE; VIEW - 1];
    assert_eq!(ks_view(&SAMPLE, &sample, &mut short), 54);
}

fn round(seen: &mut Seen, random: &mut Random) {
    let any = of_any_kind(random);
    let length = random.pick(&[5, 40, 120]);
    let records = schedule(random, &any, length);
    compare_all(seen, "any", &any, &records);
    let records = going_back(random, &any, records, 150);
    compare_all(seen, "going back", &any, &records);
    let repaired = row(random);
    let records = mended(random, &repaired, 2);
    compare_all(seen, "mended", &repaired, &records[..records.len().min(200)]);
    let records = crash_after_crash(random, &repaired, 3, 200);
    compare_all(seen, "crashes", &repaired, &records[..records.len().min(200)]);
    let records = going_back(random, &repaired, records, 250);
    compare_all(seen, "mended, going back", &repaired, &records);
    let (table, bytes) = (encode_table(&any), encode_schedule(&schedule(random, &any, 20)));
    let (one, other) = (random.pick(&DAMAGES), random.pick(&DAMAGES));
    let damaged = damage_schedule(random, bytes.clone(), one);
    compare_bytes(seen, "damaged schedule", &table, &damaged, VIEW);
    let damaged = damage_table(random, table, other);
    compare_bytes(seen, "damaged table", &damaged, &bytes, VIEW);
}

/// Microseconds of a call, the quickest of many, after so many records on the largest table, none of them a back.
fn time() {
    let mut random = Random::new(SEED);
    let table = largest(&mut random);
    let bytes = encode_table(&table);
    let mut out = vec![0; VIEW];
    for length in [0, 100, 1_000, 10_000] {
        let mut records = schedule(&mut random, &table, length);
        records.retain(|record| record.kind != BACK);
        let records = encode_schedule(&records);
        let quickest = (0..1_000)
            .map(|_| {
                let began = Instant::now();
                assert_eq!(ks_view(&bytes, &records, &mut out), 0);
                began.elapsed()
            })
            .min()
            .unwrap_or_default();
        println!("view: {} records, {:.1} microseconds", (records.len() - 3) / 6, quickest.as_secs_f64() * 1e6);
    }
}

fn main() {
    if std::env::args().nth(1).as_deref() == Some("--time") {
        return time();
    }
    let runs = number("--runs").unwrap_or(RUNS);
    let seed = number("--seed").unwrap_or(SEED);
    println!("view: {runs} runs or more, seed {seed}");
    let (mut seen, mut random) = (Seen::default(), Random::new(seed));
    lengths(&mut seen);
    while seen.runs < runs {
        round(&mut seen, &mut random);
    }
    all_met("view", seen.met());
    let Seen { runs, views, refused, done: [crashes, returns, resyncs, backs], making, fronts: [words, syncs, transfers] } = seen;
    println!(
        "view: {crashes} crashes, {returns} returns, {resyncs} resyncs, {backs} records taken back; {making} backups being made"
    );
    println!("view: at the front of a queue {words} words, {syncs} syncs, {transfers} resyncs; {refused} refused");
    println!("view: ok, {views} views of {runs} runs, every number as by the simulator");
}
