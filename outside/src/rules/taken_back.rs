//! A back key: W-214's sentences, each with a few records and the answers written by hand.
use super::answer::Answer;
use super::generate::schedule;
use super::line;
use super::plain::transparent;
use super::reader::Instruction::{Jump, Send, Set};
use super::reader::{judge_table, Channel, Process, Record, Table, OUTSIDE};
use super::repairs::{crash_after_crash, row};
use super::sample::{back, carry, crash, feed, give_back, resync, sample_schedule, step, SAMPLE};
use super::session::{standing, standing_of, Session};
use crate::random::Random;

const TAKEN: (u8, u8, u32, u8) = (7, 0, 0, 0);
const NONE_KEPT: (u8, u8, u32, u8) = (53, 0, 0, 0);

/// Code, a, word and cause of each answer, and the session that is left.
fn run<'t>(table: &'t Table, records: &[Record]) -> (Vec<(u8, u8, u32, u8)>, Session<'t>) {
    let mut session = Session::new(table);
    let answers = records.iter().map(|&record| session.answer(record)).map(|a| (a.code, a.a, a.word, a.cause)).collect();
    (answers, session)
}

fn sample() -> Table {
    judge_table(&SAMPLE).unwrap()
}

/// One process that sends a word to the outside: again and again, or once.
fn sends(again: bool) -> Table {
    let mut table = Table::new(2, vec![Channel { sender: 0, reader: OUTSIDE }]);
    let program = [Set { a: 0, word: 9 }, Send { a: 0, channel: 0 }, Jump { a: 0, place: 1 }];
    table.processes.push(Process::new(0, 1, program[..if again { 3 } else { 2 }].to_vec()));
    table
}

fn sender() -> Table {
    sends(true)
}

/// So many records that are all accepted and all change the cabinet: the SET, then words sent and carried.
fn moving(n: usize) -> Vec<Record> {
    let round = [step(0), carry(0), step(0)];
    [step(0)]
        .into_iter()
        .chain(round.into_iter().cycle())
        .take(n.min(1 + 3 * 8))
        .chain(vec![feed(0, 1); n.saturating_sub(25)])
        .collect()
}

#[test]
fn any_record() {
    // "with a and word 0 (else 32, cause 1)", and no 33; before 53.
    let stray = |a, word| Record { kind: 8, a, word };
    let records = [stray(0, 1), stray(1, 0), stray(255, u32::MAX), back(), step(0), stray(2, 0), back()];
    let wanted = [(32, 0, 0, 1), (32, 1, 0, 1), (32, 255, 0, 1), NONE_KEPT, (36, 0, 0, 0), (32, 2, 0, 1), TAKEN];
    assert_eq!(run(&sample(), &records).0, wanted);
}

#[test]
fn the_last_not_yet_taken_back() {
    // "refused ones included"; "A move 8 is itself never taken back."
    let records =
        [feed(0, 5), step(0), Record { kind: 9, a: 3, word: 3 }, carry(0), back(), back(), back(), step(0), back(), back()];
    let table = sample();
    let (answers, session) = run(&table, &records);
    let done = [(4, 0, 5, 1), (1, 0, 5, 0), (32, 3, 0, 0), (42, 0, 0, 0), TAKEN, TAKEN, TAKEN, (1, 0, 5, 0), TAKEN, TAKEN];
    assert_eq!((answers, &session.cabinet), (done.to_vec(), &Session::new(&table).cabinet));
    // "The same record given next, with nothing between, gets the same answer."
    let again = [feed(0, 5), step(0), back(), step(0), back(), step(0), carry(0), back(), carry(0)];
    let answers = run(&sample(), &again).0;
    assert_eq!((answers[1], answers[3], answers[6]), (answers[3], answers[5], answers[8]));
}

#[test]
fn sixty_four_are_kept() {
    // "only a 65th pushes out the oldest, for good": whatever their answers are.
    let table = sender();
    for given in [0, 1, 63, 64, 65, 66, 200] {
        let records = [&moving(given)[..], &vec![back(); 70]].concat();
        let (answers, session) = run(&table, &records);
        let taken = given.min(64);
        assert_eq!(answers[given..], [vec![TAKEN; taken], vec![NONE_KEPT; 70 - taken]].concat(), "{given} records");
        assert_eq!(session.cabinet, run(&table, &moving(given)[..given - taken]).1.cabinet);
    }
}

#[test]
fn a_place_that_is_free_again() {
    // 64 records, one taken back, another one: 64 again, and none was pushed out.
    let records = [&moving(64)[..], &[back(), feed(0, 7)], &[back(); 65]].concat();
    assert_eq!(run(&sender(), &records).0[66..], [&[TAKEN; 64][..], &[NONE_KEPT]].concat());
    // 65 records and one taken back: the first was pushed out, and doesn't come back.
    let records = [&moving(65)[..], &[back(); 65]].concat();
    assert_eq!(run(&sender(), &records).0[65..], [&[TAKEN; 64][..], &[NONE_KEPT]].concat());
    // Move 8s that are refused are kept nowhere: they push nothing out.
    let records = [&moving(64)[..], &[Record { a: 1, ..back() }; 10], &[back(); 65]].concat();
    assert_eq!(run(&sender(), &records).0[74..], [&[TAKEN; 64][..], &[NONE_KEPT]].concat());
}

#[test]
fn exactly_as_before() {
    // "inboxes, saved lists, queues, totals, dead boards": after each record of runs with crashes, returns and resyncs.
    let mut random = Random::new(0x9E37_79B9);
    for i in 0..300 {
        let table = row(&mut random);
        let records = match i % 2 {
            0 => crash_after_crash(&mut random, &table, 3, 200),
            _ => schedule(&mut random, &table, 100),
        };
        let mut session = Session::new(&table);
        for record in records.into_iter().filter(|record| record.kind != 8) {
            let before = session.cabinet.clone();
            let answer = session.answer(record);
            assert_eq!((session.answer(back()).code, &session.cabinet), (7, &before), "{record:?} on {table:?}");
            assert_eq!(session.answer(record), answer, "{record:?} on {table:?}");
        }
    }
}

#[test]
fn across_a_crash() {
    // The sample's crash taken back: the queue that it lost is there again, and the process on its board.
    let (table, lead) = (sample(), &sample_schedule()[..10]);
    let (mut answers, session) = run(&table, &[lead, &[crash(0), give_back(0), resync(0), back(), back(), back()]].concat());
    assert_eq!(answers.split_off(13), [TAKEN; 3]);
    assert_eq!(session.cabinet, run(&table, lead).1.cabinet);
    let (answers, _) = run(&table, &[lead, &[crash(0), back(), carry(0), crash(0), carry(1)]].concat());
    assert_eq!(answers[11..], [TAKEN, (4, 1, 12, 0), (0, 0, 0, 2), (42, 1, 0, 0)]);
}

#[test]
fn what_stands() {
    let answers = |records: &[Record]| -> Vec<(Record, Answer)> {
        let table = sample();
        let mut session = Session::new(&table);
        records.iter().map(|&record| (record, session.answer(record))).collect()
    };
    // A move 8 that is refused stands nowhere, though its 32 looks like any other.
    let stray = Record { kind: 8, a: 1, word: 0 };
    let unknown = Record { kind: 9, a: 1, word: 0 };
    assert_eq!(standing_of(&answers(&[stray, unknown, back(), back()])), []);
    assert_eq!(standing_of(&answers(&[back(), stray, unknown, stray])), [2]);
    assert_eq!(standing_of(&answers(&[feed(0, 5), feed(0, 6), back(), feed(0, 7), step(0), back()])), [0, 3]);
    assert_eq!(standing([(4, 4), (8, 7), (4, 4), (8, 32), (8, 53)]), [2]);
}

#[test]
fn what_counts_is_told() {
    // Were the records that are taken back to stand, for the moves 8 are shown as refused, the plain cabinet would tell: a feed that counts as fed,
    // and a word that stays in the bus order.
    for (table, records) in
        [(sample(), vec![feed(0, 5), back()]), (sends(false), vec![step(0), step(0), carry(0), back(), carry(0)])]
    {
        let mut session = Session::new(&table);
        let mut run: Vec<(Record, Answer)> = records.iter().map(|&record| (record, session.answer(record))).collect();
        assert_eq!(transparent(&table, &run, &session.cabinet), Ok(()));
        run.iter_mut().filter(|(record, _)| record.kind == 8).for_each(|(_, answer)| answer.code = 53);
        assert!(transparent(&table, &run, &session.cabinet).is_err(), "{records:?}");
    }
}

#[test]
fn cartons_taken_back() {
    // "feeds taken back don't count as fed": the label line is fed 501 and 503, and numbers those.
    let table = line::table(1000);
    let carton = [&[step(0); 5][..], &[carry(0), carry(0)], &[step(1); 3], &[carry(1)], &[step(1); 3], &[carry(1)]].concat();
    let records = [&[feed(0, 501), feed(0, 502), back(), feed(0, 503)], &carton[..], &[back(), carry(1)]].concat();
    let mut session = Session::new(&table);
    let answers: Vec<Answer> = records.iter().map(|&record| session.answer(record)).collect();
    assert_eq!(line::seen(&records, &answers), (vec![501, 503], vec![501, 1000]));
}
