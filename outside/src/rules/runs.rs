//! Generated tables are sound, damaged ones meet every number, and generated runs meet every answer with every cause, keep demand 3 and end quiet.
use super::damage::{damage_schedule, damage_table, DAMAGES};
use super::generate::{encode_schedule, encode_table, largest, schedule, table};
use super::going_back::{going_back, pairs};
use super::loops::loops;
use super::plain::transparent;
use super::reader::{judge_schedule, judge_table};
use super::reader::{Record, Table};
use super::reasons::reasons;
use super::repairs::{crash_after_crash, row};
use super::session::{standing_of, Session};
use super::simulator::Cabinet;
use crate::random::Random;

const SEED: u64 = 0x2545_F491_4F6C_DD1D;

#[test]
fn generated_is_sound() {
    let mut random = Random::new(SEED);
    for _ in 0..2_000 {
        let table = table(&mut random);
        assert_eq!(judge_table(&encode_table(&table)), Ok(table.clone()));
        let records = schedule(&mut random, &table, 20);
        assert_eq!(judge_schedule(&encode_schedule(&records)), Ok(records));
    }
    let mut lengths = [0; 3];
    while lengths[1..].contains(&0) {
        let largest = largest(&mut random);
        let bytes = encode_table(&largest);
        lengths[largest.version as usize] = bytes.len();
        assert_eq!(judge_table(&bytes), Ok(largest));
    }
    assert_eq!(lengths[1..], [6262, 6278]);
}

#[test]
fn damaged_meets_every_number() {
    let mut random = Random::new(SEED);
    let mut seen = [0; 48];
    for i in 0..20_000 {
        let table = table(&mut random);
        let how = DAMAGES[i % DAMAGES.len()];
        let bytes = damage_table(&mut random, encode_table(&table), how);
        seen[judge_table(&bytes).err().unwrap_or(0) as usize] += 1;
        let bytes = damage_schedule(&mut random, encode_schedule(&[]), how);
        seen[judge_schedule(&bytes).err().unwrap_or(0) as usize] += 1;
    }
    (0..=10).chain([47]).for_each(|number| assert!(seen[number] > 0, "seen {seen:?}"));
}

#[test]
fn runs_are_transparent() {
    let mut random = Random::new(SEED);
    let mut seen = [0; 256];
    let mut quiet = 0;
    for _ in 0..3_000 {
        let table = if random.once_in(4) { loops(&mut random) } else { table(&mut random) };
        let records = random.pick(&[5, 20, 60, 300]);
        let mut schedule = schedule(&mut random, &table, records);
        if random.once_in(4) {
            schedule = going_back(&mut random, &table, schedule, 2 * records);
        }
        let mut session = Session::new(&table);
        let run: Vec<_> = schedule.into_iter().map(|record| (record, session.answer(record))).collect();
        run.iter().for_each(|(_, answer)| seen[answer.reason() as usize] += 1);
        quiet += session.cabinet.quiet() as u32;
        transparent(&table, &run, &session.cabinet).unwrap_or_else(|fault| panic!("{fault}: {table:?} {run:?}"));
    }
    println!("reasons {seen:?}, quiet {quiet}");
    reasons().for_each(|reason| assert!(seen[reason as usize] > 0, "no answer {} with cause {}", reason / 4, reason % 4));
    assert_eq!(seen.iter().filter(|&&n| n > 0).count(), reasons().count(), "a reason that there isn't");
    assert!(quiet > 100, "only {quiet} runs end quiet");
}

/// W-211: crash after crash, with a quiet end on every table whose runs come to rest.
#[test]
fn crashes_after_crashes_are_transparent() {
    let mut random = Random::new(SEED);
    let (mut thrice, mut most) = (0, 0);
    for i in 0..1_500 {
        let table = row(&mut random);
        let (crashes, records) = if i % 100 == 0 { (400, 7_000) } else { (3 + random.below(8) as usize, 1_000) };
        let schedule = crash_after_crash(&mut random, &table, crashes, records);
        let mut cabinet = Cabinet::new(&table);
        let run: Vec<_> = schedule.into_iter().map(|record| (record, cabinet.answer(record))).collect();
        let crashed = run.iter().filter(|(record, answer)| (record.kind, answer.code) == (5, 0)).count();
        assert!(cabinet.quiet(), "a run of {} records doesn't come to rest: {table:?} {cabinet:?} {run:?}", run.len());
        transparent(&table, &run, &cabinet).unwrap_or_else(|fault| panic!("{fault}: {table:?} {run:?}"));
        thrice += (crashed >= 3) as u32;
        most = most.max(crashed);
    }
    println!("three crashes or more {thrice}, at most {most}");
    assert!(thrice > 1_300 && most >= 200, "three crashes or more {thrice}, at most {most}");
}

/// The records of a session that stand, played on a cabinet alone: the same answers and the same cabinet. How many were taken back.
fn stands(table: &Table, schedule: &[Record]) -> usize {
    let mut session = Session::new(table);
    let run: Vec<_> = schedule.iter().map(|&record| (record, session.answer(record))).collect();
    let standing = standing_of(&run);
    let mut cabinet = Cabinet::new(table);
    for &i in &standing {
        let (record, answer) = run[i];
        assert_eq!(cabinet.answer(record), answer, "record {} of {schedule:?} on {table:?}", i + 1);
    }
    assert_eq!(cabinet, session.cabinet, "after {schedule:?} on {table:?}");
    transparent(table, &run, &session.cabinet).unwrap_or_else(|fault| panic!("{fault}: {table:?} {run:?}"));
    run.iter().filter(|(_, answer)| answer.code == 7).count()
}

/// W-214: what stands is all that counts, however often and however far a schedule goes back.
#[test]
fn what_stands_counts() {
    let mut random = Random::new(SEED);
    let mut taken = 0;
    for i in 0..1_500 {
        let table = row(&mut random);
        let schedule = match i % 3 {
            0 => crash_after_crash(&mut random, &table, 4, 300),
            _ => schedule(&mut random, &table, 150),
        };
        taken += stands(&table, &going_back(&mut random, &table, schedule, 1_000));
    }
    assert!(taken > 20_000, "only {taken} records taken back");
    for lead in [0, 1, 63, 64, 65, 200] {
        let table = row(&mut random);
        assert!(stands(&table, &pairs(&mut random, &table, lead, 500)) == 500);
    }
}
