//! How a run's time grows where records are taken back (W-214): ours alone, as the plain run has no move 8. Each run's number, answers, reasons,
//! report and origins are those of the simulator.
use crate::mixes::Mix;
use outside::call::ks_run;
use outside::random::Random;
use outside::rules::generate::encode_schedule;
use outside::rules::lent::Lent;
use outside::rules::reader::{record, Record};
use outside::rules::run::run;
use outside::rules::sample::back;
use std::time::Instant;

/// How many records a run has.
const LENGTHS: [usize; 4] = [1_000, 2_000, 5_000, 10_000];

/// How records go on and back: a name, and so many of them, made of as many that go on.
type Shape = (&'static str, fn(&[Record], usize) -> Vec<Record>);

const SHAPES: [Shape; 6] = [
    ("no move 8", |on, many| on[..many].to_vec()),
    ("every second one a move 8", |on, many| in_pairs(&[], on, many)),
    // The furthest that a back may have to go: what is kept follows in steps.
    ("the same behind 127 records", |on, many| in_pairs(&on[..127], &[on[127]], many)),
    ("two on, one back", |on, many| in_turn(on, many, 2, 1)),
    ("65 on, 63 back", |on, many| in_turn(on, many, 65, 63)),
    ("half on, half back", |on, many| [&on[..many / 2], &vec![back(); many - many / 2]].concat()),
];

/// A record and its back, again and again, after a lead.
fn in_pairs(lead: &[Record], on: &[Record], many: usize) -> Vec<Record> {
    let pairs = on.iter().cycle().flat_map(|&record| [record, back()]);
    lead.iter().copied().chain(pairs).take(many).collect()
}

/// So many on and so many back, in turn; what is taken back is given again.
fn in_turn(on: &[Record], many: usize, forth: usize, backwards: usize) -> Vec<Record> {
    let mut records = Vec::new();
    let mut at = 0;
    while records.len() < many {
        records.extend(&on[at..at + forth]);
        records.extend(vec![back(); backwards]);
        at += forth - backwards;
    }
    records.truncate(many);
    records
}

/// The quickest of some runs, in nanoseconds; the first is compared with the simulator's.
fn time(table: &[u8], records: &[Record], repetitions: u64) -> f64 {
    let schedule = encode_schedule(records);
    let lengths = Lent::needed(records.len(), table[4] as usize);
    let wanted = run(table, &schedule, lengths);
    let mut lent = lengths.filled(0);
    let mut least = f64::INFINITY;
    for i in 0..repetitions {
        lent.each_mut().map(|buffer| buffer.fill(i as u8));
        let start = Instant::now();
        let returned = ks_run(table, &schedule, lent.lend());
        least = least.min(start.elapsed().as_nanos() as f64);
        assert!(returned == wanted.outcome.returned() && lent == wanted.lent, "another run than the simulator's");
    }
    least
}

/// A line for each shape: whole calls in microseconds, and nanoseconds a record of the longest.
pub fn print(mix: &Mix, seed: u64, repetitions: u64) {
    println!("| {} | 1,000 records | 2,000 | 5,000 | 10,000 | a record of 1,000 | of 10,000 |", mix.name);
    println!("|---|---|---|---|---|---|---|");
    let input = mix.draw(&mut Random::new(seed), LENGTHS[3]);
    let on: Vec<Record> = input.schedule[3..].chunks_exact(6).map(record).collect();
    for (name, shape) in SHAPES {
        let times = LENGTHS.map(|many| time(&input.table, &shape(&on, many), repetitions));
        let calls = times.map(|time| format!("{:.1}", time / 1000.0));
        let each = [0, 3].map(|i| format!("{:.1} ns", times[i] / LENGTHS[i] as f64));
        println!("| {name} | {} | {} |", calls.join(" | "), each.join(" | "));
    }
}
