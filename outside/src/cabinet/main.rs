//! The proved run of a schedule against the simulator, on generated tables and schedules: `cabinet_tests [--runs N] [--seed N] [--all-met]`.
//!
//! First the service desk's cases, with lines written by hand, and cases with reasons and origins written by hand; then these and document
//! 01's sample, the desk's cut after each record and with each board pulled at each place; then saved lists as long as each limit lets them get;
//! then random runs of every kind of input, until there are N runs, N with a return or a resync that was done, and a sixth of N each with three
//! crashes or more and with records taken back.
mod back_seen;
mod by_hand;
mod compare;
mod desk;
mod inputs;
mod repairs;
mod returned;
mod seen;
mod taken_back;

use compare::Comparison;
use outside::met::all_met;
use outside::options::number;
use outside::random::Random;
use outside::rules::generate::{encode_schedule, encode_table};
use outside::rules::lent::Lent;
use outside::rules::limits;
use outside::rules::reader::Record;
use outside::rules::sample::{crash, sample_schedule, SAMPLE};
use seen::Seen;

const SEED: u64 = 0xA076_1D64_78BD_642F;
const RUNS: u64 = 60_000;

/// A schedule and each of its beginnings, and the same with a crash of each board put at each place.
fn pulled(comparison: &mut Comparison, kind: &'static str, table: &[u8], records: &[Record]) {
    let buffers = Lent::needed(records.len() + 1, table[4] as usize);
    for place in 0..=records.len() {
        comparison.run(kind, table, &encode_schedule(&records[..place]), buffers);
        for board in 0..table[3] {
            let crashed = [&records[..place], &[crash(board)], &records[place..]].concat();
            comparison.run(kind, table, &encode_schedule(&crashed), buffers);
        }
    }
}

/// A saved list that is as long as its limit lets it get, with a board pulled at every place on the way there: the inbox at the end has
/// just so many words.
fn fullest(comparison: &mut Comparison, limit: u8) {
    let table = encode_table(&limits::four_channels(limit));
    let records = limits::fullest(limit);
    let end = comparison.run("fullest", &table, &encode_schedule(&records), Lent::needed(records.len(), 1));
    assert_eq!(end.lent.report[..4], [1, 0, limits::most_saved(limit), 0], "limit {limit}: board, place, unread and hold-back");
    if [1, 2, 8, 16].contains(&limit) {
        let lead = &records[..records.len() - 1];
        pulled(comparison, "fullest", &table, lead);
    }
}

/// Some runs of each kind.
fn round(comparison: &mut Comparison, random: &mut Random) {
    (0..60).for_each(|_| inputs::sound(comparison, random));
    inputs::crash_at_every_place(comparison, random);
    inputs::long_calculations(comparison, random);
    (0..10).for_each(|_| inputs::garbage(comparison, random));
    inputs::damaged(comparison, random);
    (0..4).for_each(|_| inputs::buffers(comparison, random));
    if random.once_in(4) {
        inputs::long(comparison, random);
    }
    (0..2).for_each(|_| repairs::returned(comparison, random));
    repairs::pulled_again(comparison, random);
    for _ in 0..60 {
        let crashes = 3 + random.below(6) as usize;
        repairs::often(comparison, random, crashes, 800);
    }
    if random.once_in(2) {
        repairs::often(comparison, random, 400, 7_000);
    }
    (0..30).for_each(|_| taken_back::going(comparison, random));
    (0..30).for_each(|_| taken_back::mended(comparison, random, 800));
    if random.once_in(4) {
        taken_back::mended(comparison, random, 10_000);
        taken_back::in_pairs(comparison, random);
    }
}

/// Whether there are as many runs as asked for, of each kind that counts.
fn enough(seen: &Seen, runs: u64) -> bool {
    seen.runs >= runs && seen.returned >= runs && seen.thrice >= runs / 6 && seen.back.runs >= runs / 6
}

fn main() {
    let runs = number("--runs").unwrap_or(RUNS);
    let seed = number("--seed").unwrap_or(SEED);
    let mut comparison = Comparison::new(seed);
    let desk = by_hand::check() & desk::check();
    println!("cabinet: {runs} runs or more, seed {seed}");
    let mut random = Random::new(seed);
    pulled(&mut comparison, "sample", &SAMPLE, &sample_schedule());
    for case in desk::cases() {
        pulled(&mut comparison, "service desk", &case.table, &case.records);
    }
    by_hand::compare(&mut comparison);
    (1..=16).for_each(|limit| fullest(&mut comparison, limit));
    while !enough(&comparison.seen, runs) {
        round(&mut comparison, &mut random);
    }
    let met = comparison.seen.report();
    if !desk {
        println!("cabinet: FAILED, something is another than by hand");
        std::process::exit(1);
    }
    all_met("cabinet", met);
    println!("cabinet: ok, {} runs, every number and every byte as by the simulator", comparison.seen.runs);
}
