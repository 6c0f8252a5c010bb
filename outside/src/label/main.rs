//! The proved label line against the simulator on a table written from document 02: `label_tests [--seed N]`.
//!
//! The table of first serials at both ends; schedules of several kinds, each with a crash of either board at each of its places and then
//! led on until it is quiet; buffers that are too short; schedules of 10,000 records; crash after crash; and records taken back. Every end is
//! quiet or goes on.
mod compare;

use compare::{compare, Counts};
use outside::call::ks_label_table;
use outside::options::number;
use outside::random::Random;
use outside::rules::generate::{continued, encode_table};
use outside::rules::going_back::going_back;
use outside::rules::lent::Lent;
use outside::rules::line::{table, SCANNER, SERIAL_MOST};
use outside::rules::reader::{judge_table, Record, Table};
use outside::rules::repairs::crash_after_crash;
use outside::rules::sample::{carry, crash, feed, step};
use outside::rules::simulator::Cabinet;

const SEED: u64 = 0xD1B5_4A32_D192_ED03;
const SERIALS: [u32; 5] = [0, 1, 1000, SERIAL_MOST - 1, SERIAL_MOST];
const REFUSED: [u32; 3] = [SERIAL_MOST + 1, SERIAL_MOST + 2, u32::MAX];

/// As long as any schedule here needs.
fn enough() -> Lent<usize> {
    Lent::needed(10_000, 2).and(12)
}

fn sync(a: u8) -> Record {
    Record { kind: 2, a, word: 0 }
}

/// The table of a first serial is the one written here, and its reader accepts it; or it is 46, and the lent bytes are untouched.
fn tables(random: &mut Random) {
    for first in SERIALS.into_iter().chain((0..1000).map(|_| random.word())).filter(|&first| first <= SERIAL_MOST) {
        let mut bytes = [0xEE; 84];
        assert_eq!(ks_label_table(first, &mut bytes), 0, "the table of {first} is refused");
        assert_eq!(bytes[..], encode_table(&table(first)), "another table of {first}");
        assert_eq!(judge_table(&bytes), Ok(table(first)), "the table of {first} isn't accepted");
    }
    for first in REFUSED {
        let mut bytes = [0xEE; 84];
        assert_eq!((ks_label_table(first, &mut bytes), bytes), (46, [0xEE; 84]), "the table of {first}");
    }
}

/// A cabinet with the records that led there.
struct Led<'t> {
    cabinet: Cabinet<'t>,
    records: Vec<Record>,
}

impl<'t> Led<'t> {
    fn new(table: &'t Table, records: &[Record]) -> Led<'t> {
        let mut led = Led { cabinet: Cabinet::new(table), records: Vec::new() };
        records.iter().for_each(|&record| {
            led.give(record);
        });
        led
    }

    fn give(&mut self, record: Record) -> u8 {
        self.records.push(record);
        self.cabinet.answer(record).code
    }

    /// A record that is left out where it is refused; true where it was done.
    fn tries(&mut self, record: Record) -> bool {
        let done = self.cabinet.answer(record).code < 32;
        if done {
            self.records.push(record);
        }
        done
    }

    /// One instruction of each process, with a sync where one is owed, and a carry from each board; true where anything was done.
    fn round(&mut self) -> bool {
        let mut any = false;
        for p in 0..2 {
            any |= self.tries(step(p)) || self.tries(carry(p)) || self.tries(sync(p)) && self.tries(step(p));
        }
        for board in 0..2 {
            any |= self.tries(carry(board));
        }
        any
    }

    /// Goes on until it is quiet.
    fn quiet(mut self) -> Vec<Record> {
        while !self.cabinet.quiet() {
            assert!(self.round(), "nothing can be done, and it isn't quiet");
        }
        self.records
    }
}

/// Carton by carton; all cartons first; syncs between; and some that the generator makes.
fn schedules(random: &mut Random, table: &Table) -> Vec<Vec<Record>> {
    let cartons = |from: u32, n: u32| (from..from + n).map(|code| feed(SCANNER, code));
    let one_by_one = cartons(501, 3).fold(Vec::new(), |mut records, carton| {
        records.push(carton);
        Led::new(table, &records).quiet()
    });
    let all_first = Led::new(table, &cartons(u32::MAX - 9, 10).collect::<Vec<_>>()).quiet();
    let synced: Vec<Record> = one_by_one.iter().enumerate().flat_map(|(i, &record)| [record, sync((i % 2) as u8)]).collect();
    let generated = [20, 40, 60, 60].map(|n| continued(random, table, Cabinet::new(table), n));
    [one_by_one, all_first, synced].into_iter().chain(generated).collect()
}

/// A crash of either board at each place of a schedule: as it stands, and led on until it is quiet.
fn pulled(counts: &mut Counts, first: u32, table: &Table, records: &[Record]) {
    compare(counts, first, records, Lent::needed(records.len(), 2));
    compare(counts, first, &Led::new(table, records).quiet(), enough());
    for place in 0..=records.len() {
        for board in 0..2 {
            let crashed = [&records[..place], &[crash(board)], &records[place..]].concat();
            compare(counts, first, &crashed, Lent::needed(crashed.len(), 2).and(1));
            compare(counts, first, &Led::new(table, &crashed).quiet(), enough());
        }
    }
}

/// Crash after crash (W-211): boards are pulled, returned and resynced again and again while cartons are fed and printed; then it is led on
/// until it is quiet.
fn often(counts: &mut Counts, random: &mut Random, first: u32, table: &Table) {
    for i in 0..400 {
        let (crashes, records) = if i % 100 == 0 { (400, 8_000) } else { (3 + random.below(8) as usize, 1_000) };
        let records = crash_after_crash(random, table, crashes, records);
        compare(counts, first, &records, enough());
    }
}

/// Records taken back (W-214), across crashes, returns and resyncs, with cartons and labels among them.
fn taken_back(counts: &mut Counts, random: &mut Random, first: u32, table: &Table) {
    for i in 0..200 {
        let (crashes, records, most) = if i % 50 == 0 { (20, 2_000, 10_000) } else { (2 + random.below(5) as usize, 400, 2_000) };
        let records = crash_after_crash(random, table, crashes, records);
        let records = going_back(random, table, records, most);
        compare(counts, first, &records, enough());
    }
}

/// As many cartons as 10,000 records can feed and print, with a crash somewhere among them.
fn long(counts: &mut Counts, first: u32, table: &Table, place: usize, board: u8) {
    let mut led = Led::new(table, &[]);
    let mut code = 0;
    while led.records.len() < 10_000 {
        if led.records.len() >= place && led.tries(crash(board)) {
            continue;
        }
        if led.tries(feed(SCANNER, code)) {
            code += 1;
        }
        led.round();
    }
    compare(counts, first, &led.records[..10_000], Lent::needed(10_000, 2));
}

fn main() {
    let seed = number("--seed").unwrap_or(SEED);
    println!("label: seed {seed}");
    let mut random = Random::new(seed);
    let mut counts = Counts::default();
    tables(&mut random);
    for first in SERIALS {
        let table = table(first);
        for records in schedules(&mut random, &table) {
            pulled(&mut counts, first, &table, &records);
        }
        // Each set of buffers too short by one byte, and 10,000 feeds, of which eight are accepted; then as many as there is time for.
        Lent::needed(1, 2).shortened().for_each(|short| compare(&mut counts, first, &[step(0)], short));
        compare(&mut counts, first, &vec![feed(SCANNER, 7); 10_000], enough());
        compare(&mut counts, first, &vec![feed(SCANNER, 7); 10_001], Lent::needed(11_000, 2));
        for place in [0, 1, 4999, 5000, 5001, 9999, 10_000] {
            long(&mut counts, first, &table, place, (place % 2) as u8);
        }
        often(&mut counts, &mut random, first, &table);
        taken_back(&mut counts, &mut random, first, &table);
    }
    for first in REFUSED {
        compare(&mut counts, first, &[feed(SCANNER, 7), step(0)], enough());
        compare(&mut counts, first, &[], Lent::all(0));
    }
    let Counts { runs, quiet, went_on, crashed, thrice, crashes, cartons, labels, back, unfed, unprinted } = counts;
    assert!(quiet > runs / 3 && went_on > runs / 10 && crashed > runs / 2 && labels > 500, "too little was met");
    assert!(thrice >= 1_900 && crashes >= 200, "too few crashes: {thrice} runs with three or more, {crashes} at most");
    println!("label: ok, {runs} runs, {crashed} with a crash, {quiet} quiet, up to {cartons} cartons and {labels} labels in one");
    println!("label: {thrice} runs with three crashes or more, up to {crashes} in one");
    println!("label: no end is a standstill; of the unquiet ones {went_on} were led on, each by what could be done next");
    assert!(back >= 800 && unfed > 5_000 && unprinted > 2_000, "too little was taken back: {back}, {unfed}, {unprinted}");
    println!("label: {back} runs with records taken back, {unfed} cartons and {unprinted} words at the outlet among them");
}
