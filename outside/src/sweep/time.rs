//! How long a sweep takes, and how that grows with the records.
use outside::call::ks_sweep;
use outside::random::Random;
use outside::rules::busy::busy;
use outside::rules::generate::{continued, encode_schedule, encode_table};
use outside::rules::simulator::Cabinet;
use std::time::Instant;

const SEED: u64 = 0xD1B5_4A32_D192_ED03;

/// The best of some sweeps, in milliseconds.
fn best(table: &[u8], schedule: &[u8]) -> f64 {
    let time = |_| {
        let begun = Instant::now();
        assert_eq!(ks_sweep(table, schedule) & 65_535, 0, "a sweep that is refused");
        begun.elapsed().as_secs_f64() * 1_000.0
    };
    (0..5).map(time).fold(f64::INFINITY, f64::min)
}

/// Schedules of more and more records on 16 boards and 16 processes, most of them accepted.
pub fn print() {
    let mut random = Random::new(SEED);
    let made = busy(&mut random, 16, 16);
    let records = continued(&mut random, &made, Cabinet::new(&made), 500);
    let table = encode_table(&made);
    println!("| records | runs | records run | milliseconds | ns a record |");
    println!("|---|---|---|---|---|");
    for n in [0, 50, 100, 200, 300, 400, 500] {
        let (runs, ms) = (16 * (n + 1), best(&table, &encode_schedule(&records[..n])));
        let run = runs * (n + 1);
        println!("| {n} | {runs} | {run} | {ms:.1} | {:.0} |", ms * 1e6 / run as f64);
    }
}
