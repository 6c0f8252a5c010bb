//! The service desk's cases of a board that comes back (W-210): the last lines of each page, written by hand from document 02.
use crate::desk::{adder, crossed, sender, Case};
use outside::rules::reader::Record;
use outside::rules::sample::{carry, crash, feed, give_back, resync, sample_schedule, step, sync, SAMPLE};

pub fn cases() -> Vec<Case> {
    let mut cases = Vec::new();
    let mut case = |name, table, records: &[Record], lines| cases.push(Case { name, table, records: records.to_vec(), lines });
    case(
        "pulled, repaired, resynced under load, and the other one pulled",
        SAMPLE.to_vec(),
        &[feed(0, 5), feed(0, 7), crash(0), give_back(0), resync(0), step(0), carry(1), crash(1)],
        &["3 0 0 0", "4 0 0 0", "5 0 0 0", "6 1 0 5", "7 5 0 0", "8 0 0 0", "process 0 0 0 2 0 0 0 0 0", "quiet 0"],
    );
    let away = [crash(0), give_back(0), resync(0), carry(1), crash(1), give_back(1), resync(0), carry(0)];
    let thrice = [&away[..], &away[..4]].concat();
    case(
        "away, back and away again",
        SAMPLE.to_vec(),
        &thrice,
        &[
            "4 5 0 0",
            "5 0 0 0",
            "6 0 0 0",
            "7 0 0 0",
            "8 5 0 0",
            "9 0 0 0",
            "10 0 0 0",
            "11 0 0 0",
            "12 5 0 0",
            "process 0 1 0 0 0 0 0 0 0",
            "quiet 1",
        ],
    );
    case(
        "words in front of the resync are not held back, words behind it are",
        sender(),
        &[crash(1), give_back(1), step(0), step(0), resync(0), step(0), carry(0), carry(0), carry(0), crash(0)],
        &["4 2 0 9", "5 0 0 0", "6 2 0 9", "7 4 0 9", "8 5 0 0", "9 4 0 9", "10 0 0 0", "process 0 1 2 0 1 9 0 0 0", "quiet 0"],
    );
    // Each has to have its backup before another board may be pulled.
    case(
        "what is refused on the way",
        crossed(),
        &[
            resync(1),
            crash(0),
            resync(1),
            crash(2),
            give_back(2),
            give_back(0),
            resync(1),
            resync(1),
            sync(1),
            crash(1),
            carry(1),
            crash(1),
            resync(0),
            carry(1),
            crash(1),
        ],
        &[
            "1 50 1 0",
            "2 0 0 0",
            "3 50 1 0",
            "4 44 2 0",
            "5 48 2 0",
            "6 0 0 0",
            "7 0 0 0",
            "8 41 1 0",
            "9 40 1 0",
            "10 44 1 0",
            "11 5 1 0",
            "12 44 1 0",
            "13 0 0 0",
            "14 5 0 0",
            "15 0 0 0",
            "process 0 0 0 0 0 0 0 0 0",
            "process 1 0 0 0 0 0 0 0 0",
            "quiet 1",
        ],
    );
    let held_back =
        [&sample_schedule()[..11], &[give_back(0), resync(0), step(0), step(0), step(0), resync(0), carry(1)]].concat();
    case(
        "a resync waits for the hold-back to be gone",
        SAMPLE.to_vec(),
        &held_back,
        &[
            "12 0 0 0",
            "13 49 0 0",
            "14 1 0 5",
            "15 0 0 0",
            "16 3 1 5",
            "17 0 0 0",
            "18 5 0 0",
            "process 0 1 3 1 0 5 5 0 0",
            "quiet 0",
        ],
    );
    let mut limited = vec![crash(1), give_back(1), step(0), resync(0)];
    (0..8).for_each(|_| limited.extend([feed(0, 4), step(0), step(0), step(0)]));
    limited.extend([feed(0, 4), step(0), sync(0), carry(0), step(0), sync(0), step(0)]);
    case(
        "while a resync waits a sync is owed, and can't be made",
        adder(),
        &limited,
        &[
            "37 4 0 4",
            "38 37 0 0",
            "39 40 0 0",
            "40 5 0 0",
            "41 37 0 0",
            "42 0 0 0",
            "43 1 0 4",
            "process 0 0 2 0 0 4 32 1 0",
            "quiet 0",
        ],
    );
    case(
        "words taken and arrived since the resync was issued are in the record",
        adder(),
        &[crash(1), give_back(1), step(0), feed(0, 5), resync(0), step(0), feed(0, 9), carry(0), crash(0)],
        &["4 4 0 5", "5 0 0 0", "6 1 0 5", "7 4 0 9", "8 5 0 0", "9 0 0 0", "process 0 1 1 2 0 0 0 1 0", "quiet 0"],
    );
    let old = [feed(0, 5), step(1), sync(1), crash(0), give_back(0), resync(1), carry(1), resync(1), carry(1), carry(0)];
    case(
        "a sync left from before the crash, then the resync",
        crossed(),
        &old,
        &[
            "6 41 1 0",
            "7 6 1 0",
            "8 0 0 0",
            "9 5 1 0",
            "10 42 0 0",
            "process 0 1 0 0 0 0 0 0 0",
            "process 1 1 1 0 0 5 0 0 0",
            "quiet 0",
        ],
    );
    cases
}
