//! The proved backup record against the model, on random calls: `backup_tests [CALLS [SEED]]`.
//!
//! Records are carried on from call to call, the library's in two lent arrays and the model's by itself. After each call the number,
//! the record, every lent number that may not change, the report and what is handed over are compared.
mod call;
mod inputs;
mod model;

use call::{make, view, Call, Lent, HEAD, REPORT};
use inputs::TAKES;
use model::Record;
use outside::random::Random;

const SEED: u64 = 0x9E37_79B9_7F4A_7C15;
const CALLS: u32 = 1_000_000;

/// The kinds of calls, and the numbers that each can be answered; all of them must be seen.
const KINDS: [(&str, &[u32]); 5] =
    [("new", &[0]), ("arrive", &[0, 20, 21, 22]), ("count", &[0, 20, 24]), ("sync", &[0, 20, 21, 23]), ("take over", &[0, 20])];
const NUMBERS: [u32; 6] = [0, 20, 21, 22, 23, 24];

/// How often each kind was answered each number, each kind of sync's takes was tried, and each way of being unfit was met.
struct Seen {
    answers: [[u32; 25]; 5],
    takes: [u32; 5],
    unfit: [u32; 16],
}

/// What the model says: the number, a sync's report and the record that is handed over.
fn expected(record: &mut Record, call: &Call) -> (u32, Option<[[u32; 4]; 2]>, Option<Record>) {
    match *call {
        Call::New => {
            *record = Record::new();
            (0, None, None)
        }
        Call::Arrive { slot, word } => (record.arrive(slot, word), None, None),
        Call::Count => (record.count(), None, None),
        Call::Sync { place, registers, taken } => {
            let (number, dropped, remain) = record.sync(place, registers, taken);
            (number, Some([dropped, remain]), None)
        }
        Call::TakeOver => {
            let (number, promoted) = record.take_over();
            (number, None, Some(promoted))
        }
    }
}

fn random_call(random: &mut Random, record: &Record, seen: &mut Seen) -> Call {
    match random.below(100) {
        0..=2 => Call::New,
        3..=44 => inputs::arrive(random),
        45..=64 => Call::Count,
        65..=84 => {
            let i = random.below(5) as usize;
            seen.takes[i] += 1;
            inputs::sync(random, record, TAKES[i])
        }
        _ => Call::TakeOver,
    }
}

/// Which of `KINDS` a call is.
fn kind(call: &Call) -> usize {
    match call {
        Call::New => 0,
        Call::Arrive { .. } => 1,
        Call::Count => 2,
        Call::Sync { .. } => 3,
        Call::TakeOver => 4,
    }
}

/// The numbers that no call may write: all where it was refused, else those behind the words that were saved and those that are.
fn kept(number: u32, before: &Lent, after: &Lent) -> bool {
    let behind = before.head[0].max(after.head[0]).min(64) as usize;
    if number == 0 {
        before.saved[behind..] == after.saved[behind..]
    } else {
        before == after
    }
}

fn compared(random: &mut Random, lent: &mut Lent, record: &mut Record, seen: &mut Seen) {
    let call = random_call(random, record, seen);
    let before = lent.clone();
    let report_before = [0; REPORT].map(|_: u32| random.word());
    let handed_before = [0; HEAD].map(|_: u32| random.word());
    let (mut report, mut handed) = (report_before, handed_before);

    let number = make(lent, &call, &mut report, &mut handed);
    let (wanted, reported, promoted) = expected(record, &call);

    let told = || format!("{call:?} of {before:?}");
    assert_eq!(number, wanted, "the number of {}", told());
    assert_eq!(view(&lent.saved, &lent.head), *record, "the record after {}", told());
    assert!(kept(number, &before, lent), "written behind the words, or refused and written: {}", told());
    match reported {
        Some([dropped, remain]) => {
            assert_eq!((&report[..4], &report[4..]), (&dropped[..], &remain[..]), "what was dropped and remains by {}", told())
        }
        None => assert_eq!(report, report_before, "the report of {}", told()),
    }
    match promoted {
        Some(promoted) => {
            assert_eq!(view(&lent.saved, &handed), promoted, "what is handed over by {}", told());
            assert_eq!(*lent, before, "the record after {}", told());
        }
        None => assert_eq!(handed, handed_before, "what is handed over by {}", told()),
    }
    seen.answers[kind(&call)][number as usize] += 1;
}

/// A record to go on with, fit or unfit.
fn start(random: &mut Random, seen: &mut Seen) -> Lent {
    let ways = if random.once_in(2) { random.below(16) } else { 0 };
    seen.unfit[ways as usize] += 1;
    let lent = if ways == 0 { inputs::fit(random) } else { inputs::unfit(random, ways) };
    assert_eq!(view(&lent.saved, &lent.head).unfit(), ways != 0, "unfit in the ways {ways} of {lent:?}");
    lent
}

fn report(seen: &Seen) -> bool {
    let mut complete = true;
    print!("{:>10}", "");
    NUMBERS.iter().for_each(|n| print!("{n:>9}"));
    println!("{:>9}", "all");
    for (kind, (name, possible)) in KINDS.iter().enumerate() {
        let row = &seen.answers[kind];
        print!("{name:>10}");
        NUMBERS.iter().for_each(|&n| print!("{:>9}", row[n as usize]));
        println!("{:>9}", row.iter().sum::<u32>());
        for &n in possible.iter().filter(|&&n| row[n as usize] == 0) {
            println!("{name} was never answered {n}");
            complete = false;
        }
    }
    for n in NUMBERS {
        if seen.answers.iter().all(|row| row[n as usize] == 0) {
            println!("no call was answered {n}");
            complete = false;
        }
    }
    println!("syncs by what they take:");
    for (takes, n) in TAKES.iter().zip(seen.takes) {
        println!("{:>12} {n}", format!("{takes:?}"));
        complete &= n != 0;
    }
    println!("records at first, fit or unfit by words, slot, count, place:");
    for (ways, n) in seen.unfit.iter().enumerate() {
        let names = [(inputs::WORDS, "words"), (inputs::SLOT, "slot"), (inputs::COUNT, "count"), (inputs::PLACE, "place")];
        let named: Vec<&str> = names.iter().filter(|(bit, _)| ways as u32 & bit != 0).map(|&(_, name)| name).collect();
        println!("{:>24} {n}", if named.is_empty() { "fit".to_string() } else { named.join("+") });
        complete &= *n != 0;
    }
    complete
}

fn main() {
    let mut arguments = std::env::args().skip(1).filter(|argument| argument != "--all-met");
    let calls: u32 = arguments.next().map_or(CALLS, |a| a.parse().expect("the number of calls"));
    let seed: u64 = arguments.next().map_or(SEED, |a| a.parse().expect("the seed"));
    println!("backup: {calls} calls, seed {seed}");

    let mut random = Random::new(seed);
    let mut seen = Seen { answers: [[0; 25]; 5], takes: [0; 5], unfit: [0; 16] };
    let mut lent = start(&mut random, &mut seen);
    let mut record = view(&lent.saved, &lent.head);
    for _ in 0..calls {
        // An unfit record stays so, unless it is made anew: not for long.
        if random.once_in(if record.unfit() { 4 } else { 60 }) {
            lent = start(&mut random, &mut seen);
            record = view(&lent.saved, &lent.head);
        }
        compared(&mut random, &mut lent, &mut record, &mut seen);
    }
    if !report(&seen) {
        println!("backup: FAILED, not everything was seen");
        std::process::exit(1);
    }
    println!("backup: ok, every answer as in the model");
}
