//! The kinds of input, each compared: sound runs of any length, a crash at every place, garbage, damage, and buffers of other lengths.
use crate::compare::Comparison;
use crate::seen::{LOOPS, SOUND};
use outside::random::Random;
use outside::rules::damage::{damage_schedule, damage_table, Damage, DAMAGES};
use outside::rules::generate::{any_word, continued, encode_schedule, encode_table, schedule, table};
use outside::rules::lent::Lent;
use outside::rules::loops::loops;
use outside::rules::reader::{Record, Table};
use outside::rules::sample::crash;
use outside::rules::simulator::Cabinet;
use outside::rules::tables::of_any_size;

/// What the largest schedule needs, and more.
fn enough() -> Lent<usize> {
    Lent::needed(10_000, 16).and(12)
}

/// A run with buffers as long as needed, or longer.
pub fn compare(comparison: &mut Comparison, random: &mut Random, kind: &'static str, table: &[u8], records: &[Record]) {
    let buffers = Lent::needed(records.len(), table[4] as usize).map(|needed| needed + random.pick(&[0, 0, 1, 7, 19, 20, 40]));
    comparison.run(kind, table, &encode_schedule(records), buffers);
}

/// A sound table: any, the largest, or one whose programs go round for ever.
pub fn some_table(random: &mut Random) -> Table {
    of_any_size(random, 40)
}

/// A sound table and a schedule most of whose records are accepted.
pub fn sound(comparison: &mut Comparison, random: &mut Random) {
    let table = some_table(random);
    let length = random.pick(&[0, 1, 5, 20, 60, 60, 300, 300, 1000]);
    let records = schedule(random, &table, length);
    compare(comparison, random, SOUND[0], &encode_table(&table), &records);
}

/// As sound, and 10,000 records or next to it.
pub fn long(comparison: &mut Comparison, random: &mut Random) {
    let table = some_table(random);
    let length = random.pick(&[10_000, 10_000, 9_999]);
    let records = schedule(random, &table, length);
    compare(comparison, random, SOUND[2], &encode_table(&table), &records);
}

/// The cabinet after some records.
pub fn after<'t>(table: &'t Table, records: &[Record]) -> Cabinet<'t> {
    let mut cabinet = Cabinet::new(table);
    records.iter().for_each(|&record| {
        cabinet.answer(record);
    });
    cabinet
}

/// A crash at every place of some table's schedule.
pub fn crash_at_every_place(comparison: &mut Comparison, random: &mut Random) {
    let table = some_table(random);
    // The crash comes after records that fill queues, inboxes and backup records.
    let lead = random.pick(&[0, 40, 120]);
    everywhere(comparison, random, SOUND[1], &table, lead);
}

/// The same for programs that calculate for long, after records in which instructions add up.
pub fn long_calculations(comparison: &mut Comparison, random: &mut Random) {
    let table = loops(random);
    let lead = random.pick(&[60, 130, 200, 400]);
    everywhere(comparison, random, LOOPS, &table, lead);
}

/// A schedule of `lead` records and some more, with a crash put at each of the latter's places, for each board; then the records that come
/// after go on as they were, and others follow that suit the cabinet as it is then.
fn everywhere(comparison: &mut Comparison, random: &mut Random, kind: &'static str, table: &Table, lead: usize) {
    let bytes = encode_table(table);
    let length = random.pick(&[5, 10, 20, 30]);
    let lead = continued(random, table, Cabinet::new(table), lead);
    let rest = continued(random, table, after(table, &lead), length);
    for place in 0..=length {
        for board in 0..table.boards {
            let mut records = lead.clone();
            records.extend(&rest[..place]);
            records.push(crash(board));
            if !random.once_in(3) {
                records.extend(&rest[place..]);
            }
            let more = random.pick(&[0, 10, 40]);
            records.extend(continued(random, table, after(table, &records), more));
            compare(comparison, random, kind, &bytes, &records);
        }
    }
}

/// Any bytes as records, and records of any kind with any a, with a sound table.
pub fn garbage(comparison: &mut Comparison, random: &mut Random) {
    let table = table(random);
    let length = random.below(60);
    let records: Vec<Record> = (0..length)
        .map(|_| match random.below(3) {
            0 => Record { kind: random.below(256) as u8, a: random.below(256) as u8, word: random.word() },
            1 => Record { kind: random.below(10) as u8, a: random.below(34) as u8, word: any_word(random) },
            _ => Record { kind: 1 + random.below(8) as u8, a: random.below(16) as u8, word: 0 },
        })
        .collect();
    compare(comparison, random, "garbage", &encode_table(&table), &records);
}

/// Each kind of damage to a sound table, to a schedule, and to both.
pub fn damaged(comparison: &mut Comparison, random: &mut Random) {
    let sound = table(random);
    let length = random.pick(&[0, 1, 5, 30]);
    let records = encode_schedule(&schedule(random, &sound, length));
    let sound = encode_table(&sound);
    for how in DAMAGES.into_iter().filter(|&how| how != Damage::None) {
        let table = damage_table(random, sound.clone(), how);
        let schedule = damage_schedule(random, records.clone(), how);
        comparison.run("damaged table", &table, &records, enough());
        comparison.run("damaged schedule", &sound, &schedule, enough());
        let buffers = Lent::needed(length, sound[4] as usize).map(|needed| buffer(random, needed));
        comparison.run("both damaged", &table, &schedule, buffers);
    }
}

/// A buffer's length where `needed` are needed.
fn buffer(random: &mut Random, needed: usize) -> usize {
    let some = random.below(needed as u32 + 100) as usize;
    random.pick(&[needed, needed + 1, needed.saturating_sub(1), 0, needed / 2, 2 * needed, some])
}

/// Buffers too short by one or by more, just enough, and longer, for one run.
pub fn buffers(comparison: &mut Comparison, random: &mut Random) {
    let sound = table(random);
    let length = random.pick(&[0, 1, 5, 30]);
    let records = encode_schedule(&schedule(random, &sound, length));
    let sound = encode_table(&sound);
    let needed = Lent::needed(length, sound[4] as usize);
    let others = needed.map(|needed| buffer(random, needed));
    let mut run = |buffers| comparison.run("other buffers", &sound, &records, buffers);
    run(needed);
    run(others);
    // Each of them alone.
    run(Lent { answers: others.answers, ..needed });
    run(Lent { reasons: others.reasons, ..needed });
    run(Lent { report: others.report, ..needed });
    run(Lent { origins: others.origins, ..needed });
    // Each set of them one byte under what is needed.
    for short in needed.shortened() {
        run(short);
    }
}
