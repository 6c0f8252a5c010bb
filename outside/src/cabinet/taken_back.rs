//! Records taken back (W-214): cases whose last lines are written by hand from document 02, and schedules that go back, each compared and held
//! against demand 3 by what stands of it.
use crate::compare::Comparison;
use crate::desk::{adder, sender, Case};
use crate::inputs::{compare, some_table};
use crate::repairs::{demand_3, small_table};
use outside::random::Random;
use outside::rules::generate::{encode_table, schedule};
use outside::rules::going_back::{going_back, pairs};
use outside::rules::reader::Record;
use outside::rules::repairs::{crash_after_crash, row};
use outside::rules::sample::{back, carry, crash, feed, give_back, resync, sample_schedule, step, sync, SAMPLE};

/// The kinds of input here.
pub const BACK: &str = "going back";
pub const MENDED: &str = "back across crashes";
pub const PAIRS: &str = "a record and its back";

pub fn cases() -> Vec<Case> {
    let mut cases = Vec::new();
    let mut case = |name, table, records: &[Record], lines| cases.push(Case { name, table, records: records.to_vec(), lines });
    let lead = &sample_schedule()[..10];
    // 12 is in the queue again, and the process on board 0; the crash that follows loses it once more.
    case(
        "a crash taken back: the lost queue is there again",
        SAMPLE.to_vec(),
        &[lead, &[crash(0), step(0), back(), back(), carry(0), crash(0)]].concat(),
        &["11 0 0 0", "12 1 0 5", "13 7 0 0", "14 7 0 0", "15 4 1 12", "16 0 0 0", "process 0 1 0 2 2 0 0 0 0", "quiet 0"],
    );
    // The first of 65 is the SET, which was pushed out: register 0 stays 9, and the feeds of no outside channel were kept as well.
    case(
        "65 records and 64 times back, then 53",
        sender(),
        &[&[step(0)][..], &[feed(0, 1); 64], &[back(); 65]].concat(),
        &["128 7 0 0", "129 7 0 0", "130 53 0 0", "process 0 0 1 0 0 9 0 0 0", "quiet 0"],
    );
    case(
        "64 records and 64 times back: the very start",
        sender(),
        &[&[step(0)][..], &[feed(0, 1); 63], &[back(); 65]].concat(),
        &["127 7 0 0", "128 7 0 0", "129 53 0 0", "process 0 0 0 0 0 0 0 0 0", "quiet 0"],
    );
    case(
        "a fault in a or in the word is 32, and takes nothing back",
        adder(),
        &[
            Record { a: 1, ..back() },
            back(),
            feed(0, 5),
            Record { word: 1, ..back() },
            Record { a: 255, ..back() },
            back(),
            step(0),
        ],
        &[
            "1 32 1 0",
            "2 53 0 0",
            "3 4 0 5",
            "4 32 0 0",
            "5 32 255 0",
            "6 7 0 0",
            "7 0 0 0",
            "process 0 0 1 0 0 0 0 1 0",
            "quiet 1",
        ],
    );
    // The totals are taken back too: eight words again, and no ninth.
    let full = [&[feed(0, 6); 8][..], &[feed(0, 6), back(), back(), back(), feed(0, 7), feed(0, 8), feed(0, 9)]].concat();
    case(
        "a held channel is held again after as many feeds",
        SAMPLE.to_vec(),
        &full,
        &[
            "9 39 0 0",
            "10 7 0 0",
            "11 7 0 0",
            "12 7 0 0",
            "13 4 0 7",
            "14 4 0 8",
            "15 39 0 0",
            "process 0 0 0 8 0 0 0 0 0",
            "quiet 0",
        ],
    );
    let mended =
        [crash(0), give_back(0), resync(0), carry(1), back(), sync(0), back(), back(), resync(0), back(), back(), back()];
    case(
        "a resync, a return and a crash taken back",
        SAMPLE.to_vec(),
        &mended,
        &[
            "3 0 0 0",
            "4 5 0 0",
            "5 7 0 0",
            "6 40 0 0",
            "7 7 0 0",
            "8 7 0 0",
            "9 0 0 0",
            "10 7 0 0",
            "11 7 0 0",
            "12 7 0 0",
            "process 0 0 0 0 0 0 0 0 0",
            "quiet 1",
        ],
    );
    cases
}

/// A schedule on any table that goes back, now and then or all the time.
pub fn going(comparison: &mut Comparison, random: &mut Random) {
    let table = if random.once_in(3) { some_table(random) } else { small_table(random) };
    let length = random.pick(&[1, 5, 20, 100, 200]);
    let records = schedule(random, &table, length);
    let records = going_back(random, &table, records, 600);
    compare(comparison, random, BACK, &encode_table(&table), &records);
    demand_3(&table, &records);
}

/// The same across crashes, returns and resyncs.
pub fn mended(comparison: &mut Comparison, random: &mut Random, most: usize) {
    let table = row(random);
    let crashes = 1 + random.below(5) as usize;
    let records = crash_after_crash(random, &table, crashes, most / 4);
    let records = going_back(random, &table, records, most);
    compare(comparison, random, MENDED, &encode_table(&table), &records);
    demand_3(&table, &records);
}

/// 5,000 pairs of a record and its back, or as many as there is room for behind others.
pub fn in_pairs(comparison: &mut Comparison, random: &mut Random) {
    let table = small_table(random);
    let lead = random.pick(&[0, 0, 1, 63, 64, 65, 126, 127, 128, 400]);
    let mut records = pairs(random, &table, lead, 5_000);
    records.truncate(10_000);
    compare(comparison, random, PAIRS, &encode_table(&table), &records);
    demand_3(&table, &records);
}
