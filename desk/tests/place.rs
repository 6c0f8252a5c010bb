//! Refusals with their place: wherever the proved call refuses, what is wrong is found by looking again, and it is of that number. Where it
//! doesn't refuse, nothing of any number is found.
mod common;

use common::complains;
use desk::case::{load_any, Source};
use desk::input::Kind;
use desk::place::{draft::Draft, lent, schedule, table, Called};
use kunzeastylus::{judge, label_table, sweep, write_table, Lengths, Lists, Table};
use outside::random::Random;
use outside::rules::damage::{damage_schedule, damage_table, DAMAGES};
use outside::rules::generate::{self, encode_schedule, encode_table};
use std::collections::BTreeMap;

const SEED: u64 = 0xD6E8_FEB8_6659_FD93;

/// The numbers of a table, in the order in which they are looked at, those of a schedule, and that of a sweep.
const OF_TABLES: [u8; 9] = [1, 2, 3, 4, 5, 6, 7, 8, 47];
const OF_SCHEDULES: [u8; 2] = [9, 10];

/// What is found for a number.
fn found(bytes: &(Vec<u8>, Vec<u8>), number: u8) -> Vec<String> {
    let faults = match OF_TABLES.contains(&number) {
        true => table::of_bytes(&bytes.0, number, Called::default()),
        false => schedule::of_bytes(&bytes.1, number),
    };
    assert!(faults.iter().all(|fault| fault.number == number), "{faults:?}");
    faults.into_iter().map(|fault| fault.what).collect()
}

/// Some table and schedule, sound or not.
fn input(random: &mut Random) -> (Vec<u8>, Vec<u8>) {
    let sound = generate::table(random);
    let records = random.pick(&[0, 1, 20, 60]);
    let records = generate::schedule(random, &sound, records);
    let (table_damage, schedule_damage) = (random.pick(&DAMAGES), random.pick(&DAMAGES));
    let table = damage_table(random, encode_table(&sound), table_damage);
    (table, damage_schedule(random, encode_schedule(&records), schedule_damage))
}

#[test]
fn damaged_bytes() {
    let mut random = Random::new(SEED);
    let mut seen: BTreeMap<u8, usize> = BTreeMap::new();
    for _ in 0..20_000 {
        let bytes = input(&mut random);
        let number = judge(&bytes.0, &bytes.1, Lengths::ENOUGH).err().map_or(0, |refusal| refusal.number());
        *seen.entry(number).or_default() += 1;
        if number != 0 {
            assert!(!found(&bytes, number).is_empty(), "{number}: {bytes:02X?}");
        }
        // Nothing of a lower number is found; of an accepted input, nothing at all. Version 2's heads are those of bytes that say so.
        let lower = OF_TABLES.iter().chain(&OF_SCHEDULES).take_while(|other| **other != number);
        for other in lower.filter(|other| **other != 2 && **other != 10) {
            assert_eq!(found(&bytes, *other), [] as [String; 0], "{other} below {number}: {bytes:02X?}");
        }
    }
    for number in OF_TABLES.iter().chain(&OF_SCHEDULES).chain(&[0]) {
        assert!(seen.get(number).is_some_and(|count| *count >= 20), "{number}: {seen:?}");
    }
}

/// The same of lists, which the writer refuses: numbers changed, made large, or left out.
#[test]
fn damaged_lists() {
    let mut random = Random::new(SEED);
    let mut seen: BTreeMap<u8, usize> = BTreeMap::new();
    for _ in 0..10_000 {
        let mut lists = Lists::of(&encode_table(&generate::table(&mut random))).expect("a sound table");
        let change = |random: &mut Random, list: &mut Vec<u32>| match random.below(8) {
            0 => list.push(1),
            1 => drop(list.pop()),
            _ if list.is_empty() => (),
            _ => {
                let at = random.below(list.len() as u32) as usize;
                list[at] =
                    random.pick(&[0, 1, 2, 3, 4, 5, 6, 7, 8, 16, 17, 31, 32, 33, 64, 65, 254, 255, 256, 1 << 20, u32::MAX]);
            }
        };
        for _ in 0..=random.below(2) {
            match random.below(8) {
                0 => lists.counts.boards = random.below(20),
                1 => lists.counts.processes = random.below(20),
                2 | 3 => change(&mut random, &mut lists.ends),
                4 => change(&mut random, &mut lists.placements),
                5 => change(&mut random, &mut lists.limits),
                _ => change(&mut random, &mut lists.instructions),
            }
        }
        let number = lists.table().err().map_or(0, |refusal| refusal.number());
        *seen.entry(number).or_default() += 1;
        let faults = desk::lists::faults(&lists, number);
        assert_eq!(faults.is_empty(), number == 0, "{number}: {faults:?} {lists:?}");
    }
    for number in [0, 3, 4, 5, 7, 8, 47] {
        assert!(seen.get(&number).is_some_and(|count| *count >= 20), "{number}: {seen:?}");
    }
}

/// Lists and bytes say the same.
#[test]
fn one_draft() {
    let mut random = Random::new(SEED);
    for _ in 0..200 {
        let bytes = encode_table(&generate::table(&mut random));
        assert_eq!(Draft::of_bytes(&bytes), Draft::of_lists(&Lists::of(&bytes).expect("a sound table")));
    }
}

/// 11, 12 and 51: what is lent is too short.
#[test]
fn lent_buffers() {
    let mut random = Random::new(SEED);
    let mut seen: BTreeMap<u8, usize> = BTreeMap::new();
    for _ in 0..2_000 {
        let sound = generate::table(&mut random);
        let records = generate::schedule(&mut random, &sound, 20);
        let (table, schedule) = (encode_table(&sound), encode_schedule(&records));
        let (records, processes) = (records.len(), usize::from(table[4]));
        let mut lengths = Lengths::needed(records, processes);
        let by = random.below(3) as usize;
        match random.below(5) {
            0 => lengths.answers = lengths.answers.saturating_sub(by),
            1 => lengths.reasons = lengths.reasons.saturating_sub(by),
            2 => lengths.report = lengths.report.saturating_sub(by),
            3 => lengths.origins = lengths.origins.saturating_sub(by),
            _ => (),
        }
        let number = judge(&table, &schedule, lengths).err().map_or(0, |refusal| refusal.number());
        *seen.entry(number).or_default() += 1;
        for other in [11, 12, 51] {
            let found = lent::buffers(records, processes, lengths, other);
            assert_eq!(found.is_empty(), other != number, "{number}: {found:?}");
        }
    }
    assert!([0, 11, 12, 51].iter().all(|number| seen.contains_key(number)), "{seen:?}");
}

/// 45 and 46: the writer's buffer, and the label line's first serial.
#[test]
fn writer_and_label_line() {
    let lists = Lists::of(&label_table(1_000).expect("a table")).expect("a table");
    for lent in [0, 83, 84, 85] {
        let number = write_table(&lists, &mut vec![0; lent]).err().map_or(0, |refusal| refusal.number());
        assert_eq!((number == 45, lent::output(84, lent).is_empty()), (lent < 84, lent >= 84));
    }
    for first in [0, 4_294_957_295, 4_294_957_296, u32::MAX] {
        assert_eq!(label_table(first).is_err(), !lent::serial(first).is_empty(), "{first}");
    }
}

/// 52: what a sweep won't take.
#[test]
fn unswept() {
    let mut random = Random::new(SEED);
    let mut seen: BTreeMap<u8, usize> = BTreeMap::new();
    for _ in 0..300 {
        let sound = generate::table(&mut random);
        let records = random.pick(&[0, 5, 20]);
        let records = generate::schedule(&mut random, &sound, records);
        let (table, schedule_bytes) = (encode_table(&sound), encode_schedule(&records));
        let number = sweep(&table, &schedule_bytes).err().map_or(0, |refusal| refusal.number());
        *seen.entry(number).or_default() += 1;
        assert_eq!(schedule::of_bytes(&schedule_bytes, 52).is_empty(), number == 0, "{number}: {schedule_bytes:02X?}");
    }
    assert!(seen.keys().eq([0, 52].iter()), "{seen:?}");
}

/// What is said, word for word, of each number.
#[test]
fn in_words() {
    let hex = |text: &str, number: u8, about: &str| {
        complains(&["run", "-"], text.as_bytes(), 3, &format!("refused {number}\n"), &format!("ks run: standard input:{about}"));
    };
    let schedule = "\n00 01 01";
    hex("", 1, "1: the file is empty; a cabinet in words is wanted");
    hex("00 23 01", 1, "1: the table has 3 bytes, and at least 6 are wanted");
    hex("00 40\n01 02 01 01 FF 00 00 01 00", 1, "1: the length field says 64, 9 bytes follow");
    hex("00 09\n03 02 01 01 FF 00 00 01 00", 2, "2: the version is 3, and there are 1 and 2");
    hex("00 09 01\n01\n01\n01 FF 00 00 01 00", 3, "2: 1 boards, and there are 2 to 16");
    hex("00 09 01 02 01 01\nFF 00\n00 01 41", 4, "3: process 0 has 65 instructions, and 64 are the most");
    hex(
        "00 09 01 02 01 01\nFF 00\n00 01 01",
        4,
        "3: process 0 has 1 instructions, which end with byte 17, and the table has 11 bytes",
    );
    hex("00 0A 01 02 01 01\nFF 00\n00 01 00\n00", 4, "4: the process records end with byte 11, and 1 more follow in the table");
    hex(
        "00 09 01 02 01 01\nFF 01\n00 01 00",
        5,
        "2: channel 0: its reader is 1, which is no process below 1 and not 255, the outside",
    );
    let five = "00 11 01 02 01 05\nFF 00\nFF 00\nFF 00\nFF 00\nFF 00\n00 01 00";
    hex(five, 6, "6: process 0 reads five channels: 0, 1, 2, 3, 4; four are the most");
    hex("00 09 01 02 01 01\nFF 00\n00 00 00", 7, "3: process 0: its board and its backup's are both 0");
    hex("00 0F 01 02 01 01\nFF 00\n00 01 01\n04 03 00 00 00 01", 8, "4: process 0, place 0: FIRST 3: register a + 1 is 4");
    hex("00 0A 02 02 01 01\nFF 00\n00 01 11 00", 47, "3: process 0: its limit is 17, and 1 to 16 are wanted");
    let table = "00 09 01 02 01 01 FF 00 00 01 00";
    hex(table, 9, "1: there is no schedule, and at least 3 bytes are wanted");
    hex(&format!("{table}\n00 07 01"), 9, "2: the length field says 7, 1 bytes follow");
    hex(&format!("{table}\n00 02 01\n01"), 9, "3: record 1 has 1 bytes, and a record has 6");
    hex(&format!("{table}\n00 01\n02"), 10, "3: the schedule's version is 2, and there is 1");
    // Bytes have no lines.
    let bytes = [0, 9, 1, 2, 1, 1, 255, 0, 0, 0, 0, 0, 1, 1];
    complains(&["run", "-"], &bytes, 3, "refused 7\n", "ks run: standard input: byte 8: process 0: its board");
    // An accepted table is taken apart.
    assert!(Table::of(&bytes[..11]).is_err() && desk::hex::bytes(format!("{table}{schedule}").as_bytes()).is_ok());
}

/// Whatever bytes a file has, as they are or as hex text: what is refused is said with its place.
#[test]
fn damaged_files() {
    let mut random = Random::new(SEED);
    let folder = std::env::temp_dir().join(format!("ks-place-{}", std::process::id()));
    std::fs::create_dir_all(&folder).expect("a temporary folder");
    let file = folder.join("damaged").to_str().expect("a name").to_string();
    let mut refused = 0;
    for i in 0..1_000 {
        let (table, schedule) = input(&mut random);
        let bytes = [table, schedule].concat();
        let (kind, text) = match i % 2 {
            0 => (Kind::Bytes, bytes),
            _ => (
                Kind::Hex,
                bytes
                    .chunks(6)
                    .map(|line| line.iter().map(|byte| format!("{byte:02x}")).collect::<String>() + "\n")
                    .collect::<String>()
                    .into_bytes(),
            ),
        };
        std::fs::write(&file, &text).expect("a temporary file");
        if let Err(failure) = load_any(Source { table: None, file: &file, kind }) {
            refused += 1;
            let lines = text.iter().filter(|byte| **byte == b'\n').count().max(1);
            for said in &failure.said {
                let place = said.strip_prefix(&file).expect("its file");
                let line =
                    place.strip_prefix(':').and_then(|rest| rest.split(':').next()).and_then(|line| line.parse::<usize>().ok());
                assert!(
                    place.starts_with(": byte ") && kind == Kind::Bytes || line.is_some_and(|line| (1..=lines).contains(&line)),
                    "{said}"
                );
            }
            assert!(failure.shown.starts_with("refused ") && !failure.said.is_empty());
        }
    }
    std::fs::remove_dir_all(&folder).expect("a temporary folder");
    assert!(refused > 300, "{refused}");
}
