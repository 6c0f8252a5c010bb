//! Inputs of the program by a seed, sound and damaged: the bytes of a table, then those of a schedule.
use outside::random::Random;
use outside::rules::damage::{damage_schedule, damage_table, Damage, DAMAGES};
use outside::rules::generate::{encode_schedule, encode_table, schedule, table, with_length};
use outside::rules::going_back::going_back;
use outside::rules::reader::{Record, Table};
use outside::rules::sample::{sample_schedule, SAMPLE};
use outside::rules::tables::of_any_size;

/// The kinds of input; every kind has its share of the runs.
pub const KINDS: [&str; 9] =
    ["sound", "long", "going back", "damaged table", "damaged schedule", "both damaged", "cut short", "any records", "any bytes"];

fn joined(table: &[u8], schedule: &[u8]) -> Vec<u8> {
    [table, schedule].concat()
}

/// A sound table: any, the largest, or one whose programs go round for ever.
fn some_table(random: &mut Random) -> Table {
    of_any_size(random, 20)
}

/// A sound table, and records most of which are accepted.
fn sound(random: &mut Random, lengths: &[usize]) -> (Vec<u8>, Vec<u8>) {
    let table = some_table(random);
    let length = random.pick(lengths);
    let records = schedule(random, &table, length);
    (encode_table(&table), encode_schedule(&records))
}

fn damage(random: &mut Random) -> Damage {
    random.pick(&DAMAGES[1..])
}

fn any_bytes(random: &mut Random, most: u32) -> Vec<u8> {
    let length = random.below(most + 1);
    (0..length).map(|_| random.below(256) as u8).collect()
}

/// Records of any kind with any a and word.
fn any_records(random: &mut Random) -> Vec<Record> {
    let length = random.below(60);
    let record = |random: &mut Random| match random.below(3) {
        0 => Record { kind: random.below(256) as u8, a: random.below(256) as u8, word: random.word() },
        1 => Record { kind: random.below(10) as u8, a: random.below(34) as u8, word: random.pick(&[0, 1, u32::MAX]) },
        _ => Record { kind: 1 + random.below(8) as u8, a: random.below(16) as u8, word: 0 },
    };
    (0..length).map(|_| record(random)).collect()
}

/// An input of a kind, by its place in `KINDS`.
pub fn input(random: &mut Random, kind: usize) -> Vec<u8> {
    let short = [0, 1, 5, 20, 60, 300];
    match KINDS[kind] {
        "sound" => {
            let (table, schedule) = sound(random, &short);
            joined(&table, &schedule)
        }
        "long" => {
            // Up to the most records that there are, and over that; one in four has so many.
            let (table, mut schedule) = sound(random, &[1000, 1000, 1000, 10_000]);
            if random.once_in(3) {
                let length = random.pick(&[60_003, 60_004, 60_009, 65_537, 65_538, 70_000]);
                schedule.resize(length, 1);
                schedule = if random.once_in(2) { with_length(schedule) } else { schedule };
            }
            let table = if random.once_in(6) { damage_table(random, table, Damage::Limits) } else { table };
            joined(&table, &schedule)
        }
        "going back" => {
            let table = some_table(random);
            let (length, most) = random.pick(&[(5, 20), (60, 200), (200, 600), (2_000, 10_000)]);
            let records = schedule(random, &table, length);
            joined(&encode_table(&table), &encode_schedule(&going_back(random, &table, records, most)))
        }
        "damaged table" => {
            let (table, schedule) = sound(random, &short);
            let how = damage(random);
            joined(&damage_table(random, table, how), &schedule)
        }
        "damaged schedule" => {
            let (table, schedule) = sound(random, &short);
            let how = damage(random);
            joined(&table, &damage_schedule(random, schedule, how))
        }
        "both damaged" => {
            let (table, schedule) = sound(random, &short);
            let (how, other) = (damage(random), damage(random));
            joined(&damage_table(random, table, how), &damage_schedule(random, schedule, other))
        }
        "cut short" => {
            let (table, schedule) = sound(random, &short);
            let mut bytes = joined(&table, &schedule);
            let some = random.below(bytes.len() as u32) as usize;
            bytes.truncate(random.pick(&[some, some, bytes.len() - 1, table.len(), table.len() + 1, table.len() + 2, 1]));
            bytes
        }
        "any records" => {
            let table = table(random);
            joined(&encode_table(&table), &encode_schedule(&any_records(random)))
        }
        _ => {
            // Bytes that begin as a table does, some of them.
            let start: &[u8] =
                random.pick(&[&[][..], &[0], &[0, 9, 1, 2, 1, 1], &[0, 10, 2, 2, 1, 1], &[0x18, 0x84, 2], &[0x18, 0x85]]);
            joined(start, &any_bytes(random, 200))
        }
    }
}

/// The sample, each of its beginnings, and each of its bytes changed in three ways.
pub fn around_the_sample() -> Vec<Vec<u8>> {
    let sample = joined(&SAMPLE, &encode_schedule(&sample_schedule()));
    let mut inputs: Vec<Vec<u8>> = (0..=sample.len()).map(|length| sample[..length].to_vec()).collect();
    for at in 0..sample.len() {
        for change in [1, 2, 0xFF] {
            let mut bytes = sample.clone();
            bytes[at] ^= change;
            inputs.push(bytes);
        }
    }
    inputs.push(joined(&sample, &[0]));
    inputs
}
