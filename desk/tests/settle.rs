//! `settle` and `until`: what they make ends quiet or stands still, has no refused record, and is the same whether it is made or written out.
mod common;

use common::{ks, printed};
use desk::case::{load, Source};
use desk::form::assemble::Step;
use desk::form::syntax::At;
use desk::input::Kind;
use desk::proved::run_records;
use desk::settle::{unfold, Stuck, SETTLE_MOST};
use kunzeastylus::{Code, Move, Record};
use outside::random::Random;
use outside::rules::generate::{encode_schedule, encode_table, schedule, table};
use outside::rules::loops::loops;

const SEED: u64 = 0xA076_1D64_78BD_642F;

/// Some records, and then on until quiet.
fn settled(table: &[u8], records: Vec<Record>, within: Option<u32>) -> (Vec<Record>, Option<Stuck>) {
    let plan = [Step::Records { records, expected: None }, Step::Settle { within }];
    let unfolded = unfold(table, &plan.map(|it| At { line: 1, it }));
    assert!(unfolded.stuck.len() <= 1 && unfolded.lines.len() == unfolded.records.len());
    (unfolded.records, unfolded.stuck.into_iter().next().map(|at| at.it))
}

/// What is made is steps, syncs and carries, none refused; it ends quiet, or stands still, or has as many records as it may.
#[test]
fn quiet_or_still() {
    let mut random = Random::new(SEED);
    let (mut quiet, mut still, mut endless) = (0, 0, 0);
    for i in 0..150 {
        let sound = if i % 3 == 0 { loops(&mut random) } else { table(&mut random) };
        let length = random.pick(&[0, 5, 40]);
        let before = schedule(&mut random, &sound, length);
        let before = Record::read(&encode_schedule(&before)).expect("a sound schedule");
        let table = encode_table(&sound);
        let within = random.pick(&[None, Some(100), Some(0)]);
        let (records, stuck) = settled(&table, before.clone(), within);
        let made = records.len() - before.len();
        assert!(records.starts_with(&before) && made <= within.map_or(SETTLE_MOST, |within| within as usize));
        let ran = run_records(&table, &records).expect("a run");
        for (record, answer) in records.iter().zip(&ran.answers).skip(before.len()) {
            let kind = record.kind();
            assert!(
                matches!(kind, Some(Move::Step | Move::Sync | Move::Carry)) && !answer.code.refused(),
                "{record:?} {answer:?}"
            );
        }
        match stuck {
            None => quiet += 1,
            Some(Stuck::Unquiet { still: true, records, programs }) => {
                still += 1;
                let codes: Vec<Code> = programs.iter().map(|(_, answer)| answer.code).collect();
                assert!(
                    records == made && codes.iter().all(|code| code.refused()) && codes.contains(&Code::ChannelHeld),
                    "{codes:?}"
                );
            }
            Some(Stuck::Unquiet { records, .. }) => {
                endless += 1;
                assert!(records == made && made == within.map_or(SETTLE_MOST, |within| within as usize), "{made} {within:?}");
            }
            other => panic!("{other:?}"),
        }
        assert_eq!(ran.quiet, matches!(stuck_of(&table, &records), None | Some(0)), "{made}");
        // Once quiet, always quiet: nothing more is made.
        if ran.quiet {
            assert_eq!(settled(&table, records.clone(), None), (records, None));
        }
    }
    assert!(quiet > 30 && endless > 10 && still > 0, "{quiet} quiet, {still} still, {endless} endless");
}

/// How many records can be done behind these: 0 where the cabinet is quiet, by document 01.
fn stuck_of(table: &[u8], records: &[Record]) -> Option<usize> {
    let answer = |record: Record| run_records(table, &[records, &[record]].concat()).expect("a run").answers[records.len()].code;
    let waits = |p: u8| matches!(answer(Record::step(p)), Code::Halted | Code::NoWord);
    let empty = |board: u8| matches!(answer(Record::carry(board)), Code::QueueEmpty | Code::BoardDead);
    let quiet = (0..table[4]).all(waits) && (0..table[3]).all(empty);
    (!quiet).then_some(1)
}

/// What was made is what is written: the hex text of a schedule that settles runs as the words do.
#[test]
fn as_written() {
    let name = "samples/release.cabinet";
    let hex = printed(&["hex", name], &[]);
    assert_eq!(printed(&["run", "-"], hex.as_bytes()), printed(&["run", name], &[]));
    let words = printed(&["words", name], &[]);
    assert!(!words.contains("settle") && !words.contains("until"));
    assert_eq!(printed(&["hex", "-"], words.as_bytes()), hex);
}

/// In the order that the help says: syncs that are owed, a step of each program, a carry of each board.
#[test]
fn in_order() {
    let text = "boards 2\nchannel a outside -> p\nchannel b p -> q\nprogram p on 0 backup 1 limit 1\ntake r0 a\nsend r0 b\n\
                program q on 1 backup 0\ntake r0 b\nschedule\nfeed a 7\nsettle\n";
    let words = printed(&["words", "-"], text.as_bytes());
    let made: Vec<&str> = words.split_once("schedule\n").expect("a schedule").1.lines().map(str::trim).collect();
    assert_eq!(made, ["feed a 7", "step p", "sync p", "step p", "carry 0 x2", "step q"]);
}

#[test]
fn until() {
    let sample = |rest: &str| {
        common::sample("sample.cabinet").split_once("schedule").expect("a schedule").0.to_string() + "schedule\n" + rest
    };
    let made = |rest: &str| -> Vec<String> {
        let words = printed(&["words", "-"], sample(rest).as_bytes());
        words.split_once("schedule\n").expect("a schedule").1.lines().map(|line| line.trim().to_string()).collect()
    };
    assert_eq!(
        made("feed numbers 1\nstep adder until queued\ncarry 0 until empty\nstep adder until refused"),
        ["feed numbers 1", "step adder x3", "carry 0", "step adder"]
    );
    assert_eq!(made("carry 0 until empty"), [] as [&str; 0]);
    assert_eq!(made("feed numbers 3 until held"), vec!["feed numbers 3"; 8]);
    // What never comes is said, by its line.
    let ended = ks(&["check", "-"], sample("crash 0\ncarry 0 until empty\n").as_bytes());
    let said = String::from_utf8_lossy(&ended.stderr).replace("\n    ", " ");
    assert_eq!(ended.status.code(), Some(4));
    assert!(said.contains(":18: until: record 2 would be refused 34, board dead"), "{said}");
}

/// A settle of many records is quick: each round costs a run, and rounds are tried many at a time.
#[test]
fn in_no_time() {
    let text = "boards 2\nchannel a outside -> p\nprogram p on 0 backup 1\nset r0 1\nagain: jump again if r0\nschedule\nsettle within 9000\n";
    let file = std::env::temp_dir().join(format!("ks-settle-{}", std::process::id()));
    std::fs::write(&file, text).expect("a temporary file");
    let begun = std::time::Instant::now();
    let case = load(Source { table: None, file: file.to_str().expect("a name"), kind: Kind::AsItLooks }).expect("a case");
    let took = begun.elapsed();
    std::fs::remove_file(&file).expect("a temporary file");
    assert_eq!(case.unfolded.records.len(), 9_000);
    // A second or two where nothing else runs; a run for each record would be minutes.
    assert!(took.as_secs() < 30, "{took:?}");
}
