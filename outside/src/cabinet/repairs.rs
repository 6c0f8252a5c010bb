//! Inputs in which boards come back: a return and a resync at every place, a crash at every place after them, and crash after crash.
use crate::compare::Comparison;
use crate::inputs::{after, compare, some_table};
use outside::random::Random;
use outside::rules::generate::{continued, encode_table};
use outside::rules::loops::loops;
use outside::rules::plain::transparent;
use outside::rules::reader::{Record, Table};
use outside::rules::repairs::{bare, crash_after_crash, mended, row};
use outside::rules::sample::{crash, give_back, resync};
use outside::rules::session::Session;

/// The kinds of input here.
pub const RETURNED: &str = "back at every place";
pub const AGAIN: &str = "pulled again anywhere";
pub const OFTEN: &str = "crash after crash";

/// A sound table; most often a small one, in which a crash leaves few without a backup.
pub fn small_table(random: &mut Random) -> Table {
    match random.below(8) {
        0 => some_table(random),
        1 => loops(random),
        _ => row(random),
    }
}

/// The bus order of a run, which was compared already, is that of a plain run, and so is a quiet end; whether it is one.
pub fn demand_3(table: &Table, records: &[Record]) -> bool {
    let mut session = Session::of(table, records.iter().map(|record| record.kind));
    let run: Vec<_> = records.iter().map(|&record| (record, session.answer(record))).collect();
    transparent(table, &run, &session.cabinet).unwrap_or_else(|fault| panic!("{fault}: {table:?} {run:?}"));
    session.cabinet.quiet()
}

/// The cabinet goes on from there with other records, which suit it.
fn led_on(random: &mut Random, table: &Table, mut records: Vec<Record>, lengths: &[usize]) -> Vec<Record> {
    let more = random.pick(lengths);
    records.extend(continued(random, table, after(table, &records), more));
    records
}

/// A crash, and then its board's return at each place of some records, and a resync of a process at each place after it: with words that
/// arrive and are taken before, between and behind. Now and then a second crash follows.
pub fn returned(comparison: &mut Comparison, random: &mut Random) {
    let table = small_table(random);
    let bytes = encode_table(&table);
    let crashes = random.pick(&[0, 0, 1, 2]);
    let mut lead = mended(random, &table, crashes);
    let board = random.below(table.boards as u32) as u8;
    lead.push(crash(board));
    let length = random.pick(&[3, 6, 9]);
    let rest = continued(random, &table, after(&table, &lead), length);
    let processes = bare(&after(&table, &lead));
    let process = if processes.is_empty() { 0 } else { random.pick(&processes) };
    for place in 0..=rest.len() {
        for later in place..=rest.len() {
            let parts: [&[Record]; 5] = [&lead, &rest[..place], &[give_back(board)], &rest[place..later], &[resync(process)]];
            let mut records = [&parts.concat()[..], &rest[later..]].concat();
            records = led_on(random, &table, records, &[0, 5, 20]);
            if random.once_in(3) {
                records.push(crash(random.below(table.boards as u32) as u8));
                records = led_on(random, &table, records, &[0, 10]);
            }
            compare(comparison, random, RETURNED, &bytes, &records);
            demand_3(&table, &records);
        }
    }
}

/// After one crash or more, returns and resyncs: a crash of each board at each place of the records from the last return on.
pub fn pulled_again(comparison: &mut Comparison, random: &mut Random) {
    let table = small_table(random);
    let bytes = encode_table(&table);
    let crashes = random.pick(&[1, 1, 2, 3]);
    let lead = mended(random, &table, crashes);
    let from = lead.iter().rposition(|record| record.kind == 6).unwrap_or(0);
    let lead = led_on(random, &table, lead, &[0, 5, 10]);
    // At the last places only, where there are many.
    for place in from.max(lead.len().saturating_sub(40))..=lead.len() {
        for board in 0..table.boards.min(4) {
            let crashed = [&lead[..place], &[crash(board)]].concat();
            let records = if random.once_in(3) { crashed } else { [&crashed[..], &lead[place..]].concat() };
            let records = led_on(random, &table, records, &[0, 10, 40]);
            compare(comparison, random, AGAIN, &bytes, &records);
            demand_3(&table, &records);
        }
    }
}

/// W-211: crashes, returns and resyncs again and again, with a quiet end; its bus order and its end are those of a plain run.
pub fn often(comparison: &mut Comparison, random: &mut Random, crashes: usize, records: usize) {
    let table = row(random);
    let records = crash_after_crash(random, &table, crashes, records);
    compare(comparison, random, OFTEN, &encode_table(&table), &records);
    assert!(demand_3(&table, &records), "a run doesn't come to rest: {table:?} {records:?}");
}
