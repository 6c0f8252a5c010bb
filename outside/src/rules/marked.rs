//! The marked cases M1 to M13 of document 01, the ninth take, the 65th instruction, buffers, schedules and refused pages.
use super::answer::Answer;
use super::backup::{Backup, Message, Snapshot};
use super::generate::{encode_schedule, encode_table, with_length};
use super::lent::Lent;
use super::limits::{four_channels, fullest, most_saved};
use super::page::page;
use super::reader::{judge_run, judge_schedule, judge_table, Channel, Instruction, Process, Record, Table, OUTSIDE};
use super::run::{run, Outcome};
use super::sample::{carry, crash, feed, sample_schedule, step, sync, SAMPLE};
use super::simulator::Cabinet;

/// M13.
const PAGE: &str = "records 20
1 4 0 5
2 4 0 7
3 1 0 5
4 0 0 0
5 2 1 5
6 4 1 5
7 0 0 0
8 1 0 7
9 0 0 0
10 2 1 12
11 0 0 0
12 1 0 5
13 0 0 0
14 3 1 5
15 0 0 0
16 1 0 7
17 0 0 0
18 2 1 12
19 4 1 12
20 0 0 0
process 0 1 0 0 0 7 12 0 0
quiet 1
";

/// The answers of the sample's cabinet, or of another table's.
fn answers(table: &[u8], records: &[Record]) -> Vec<(u8, u8, u32)> {
    let table = judge_table(table).unwrap();
    let mut cabinet = Cabinet::new(&table);
    records.iter().map(|&record| cabinet.answer(record)).map(|Answer { code, a, word, .. }| (code, a, word)).collect()
}

/// The number of the sample with one byte changed.
fn number(at: usize, byte: u8) -> u8 {
    let mut table = SAMPLE;
    table[at] = byte;
    judge_table(&table).err().unwrap_or(0)
}

#[test]
fn m1_to_m6() {
    assert!(judge_table(&SAMPLE).is_ok());
    assert_eq!(number(1, 0x22), 1);
    assert_eq!(number(2, 9), 2);
    assert_eq!(number(3, 1), 3);
    assert_eq!(number(11, 0), 7);
    assert_eq!(number(13, 7), 8);
}

#[test]
fn m7() {
    let mut table = SAMPLE.to_vec();
    // SET 0 to 4,294,967,295; SET 1 to 1; ADD 0 and 1.
    table[13..31].copy_from_slice(&[1, 0, 255, 255, 255, 255, 1, 1, 0, 0, 0, 1, 2, 0, 0, 0, 0, 1]);
    let table = judge_table(&table).unwrap();
    let mut cabinet = Cabinet::new(&table);
    (0..3).for_each(|_| assert_eq!(cabinet.answer(step(0)), Answer::new(0, 0, 0)));
    assert_eq!(cabinet.processes[0].registers, [0, 1, 0, 0]);
}

#[test]
fn m8_to_m11() {
    assert_eq!(answers(&SAMPLE, &[step(0)]), [(36, 0, 0)]);
    let mut nine = [(4, 0, 6); 9];
    nine[8] = (39, 0, 0);
    assert_eq!(answers(&SAMPLE, &[feed(0, 6); 9]), nine);
    assert_eq!(answers(&SAMPLE, &[carry(0)]), [(42, 0, 0)]);
    assert_eq!(answers(&SAMPLE, &[crash(0), crash(1), crash(0)]), [(0, 0, 0), (44, 1, 0), (34, 0, 0)]);
}

#[test]
fn m12() {
    let message = |slot, word| Message { channel: slot, slot, word };
    let mut record = Backup::new(1);
    record.saved = vec![message(0, 10), message(1, 11), message(0, 12)];
    record.sync(Snapshot { registers: [0; 4], place: 0, taken: [1, 0, 0, 0] });
    assert_eq!(record.saved, [message(1, 11), message(0, 12)]);
}

#[test]
fn m13() {
    let mut input = SAMPLE.to_vec();
    input.extend(encode_schedule(&sample_schedule()));
    assert_eq!(page(&input), PAGE);
}

/// The sample's table with a loop for ever of one instruction, on register 1 and with word 0.
fn looping(code: u8) -> Vec<u8> {
    let mut table = SAMPLE.to_vec();
    table[13..31].copy_from_slice(&[1, 0, 0, 0, 0, 1, code, 1, 0, 0, 0, 0, 6, 0, 0, 0, 0, 1]);
    table
}

#[test]
fn eight_acts_pass() {
    // A process that takes for ever: eight takes pass, the ninth is 37 with a word there, 36 with none.
    let table = looping(3);
    let mut records = vec![step(0)];
    for _ in 0..8 {
        records.extend([feed(0, 9), step(0), step(0)]);
    }
    records.extend([step(0), feed(0, 9), step(0)]);
    let answers = answers(&table, &records);
    assert_eq!(answers.iter().filter(|answer| **answer == (1, 0, 9)).count(), 8);
    assert_eq!(answers[25..], [(36, 0, 0), (4, 0, 9), (37, 0, 0)]);
}

#[test]
fn sixty_four_instructions_pass() {
    // W-204: a loop that neither reads nor sends stops at the 65th, goes on after a sync, and without a backup owes nothing.
    let table = looping(2);
    let mut records = vec![step(0); 66];
    records.push(sync(0));
    records.extend(vec![step(0); 65]);
    records.push(crash(1));
    records.extend(vec![step(0); 70]);
    let codes: Vec<u8> = answers(&table, &records).iter().map(|answer| answer.0).collect();
    let refused: Vec<usize> = (0..codes.len()).filter(|&i| codes[i] != 0).collect();
    assert_eq!(refused, [64, 65, 131]);
    assert!(refused.iter().all(|&i| codes[i] == 37));
}

#[test]
fn no_word_comes_first() {
    // A round of 64 instructions that begins with a TAKE: after it 36 with no word there, 37 with one, and after a sync it is taken.
    let mut program = vec![Instruction::Take { a: 0, channel: 0 }];
    program.extend([Instruction::Set { a: 1, word: 1 }; 62]);
    program.push(Instruction::Jump { a: 1, place: 0 });
    let mut table = Table::new(2, vec![Channel { sender: OUTSIDE, reader: 0 }]);
    table.processes.push(Process::new(0, 1, program));
    let mut records = vec![feed(0, 9)];
    records.extend([step(0); 65]);
    records.extend([feed(0, 9), step(0), sync(0), step(0)]);
    assert_eq!(
        answers(&encode_table(&table), &records)[64..],
        [(0, 0, 0), (36, 0, 0), (4, 0, 9), (37, 0, 0), (0, 0, 0), (1, 0, 9)]
    );
}

/// The sample in version 2 with this limit.
fn sample_limited(limit: u8) -> Vec<u8> {
    let mut table = SAMPLE.to_vec();
    table[2] = 2;
    table.insert(12, limit);
    with_length(table)
}

#[test]
fn limits_of_version_2() {
    // W-207: "a limit byte, 1 to 16, between the backup board and n"; "47, a limit outside 1 to 16".
    for limit in 0..=255 {
        let judged = judge_table(&sample_limited(limit));
        match limit {
            1..=16 => assert_eq!(judged.map(|table| (table.version, table.processes[0].limit)), Ok((2, limit))),
            _ => assert_eq!(judged, Err(47)),
        }
    }
    // "Version 1 is read as limit 8 throughout."
    let [mut one, two] = [&SAMPLE[..], &sample_limited(8)].map(|table| judge_table(table).unwrap());
    assert_eq!((one.version, one.processes[0].limit), (1, 8));
    one.version = 2;
    assert_eq!(one, two);
    // 47 after 8, and before 9, in the whole table; a version 1 table in version 2's clothes is 4.
    let mut both = sample_limited(0);
    both[14] = 7;
    assert_eq!(judge_table(&both), Err(8));
    assert_eq!(judge_run(&sample_limited(17), &[], Lent::all(0)), Err(47));
    assert_eq!(number(2, 2), 4);
    let mut other = sample_limited(8);
    other[2] = 1;
    assert_eq!(judge_table(&other), Err(4));
    assert_eq!([number(2, 0), number(2, 3)], [2, 2]);
    // A version 1 table of up to 6,276 bytes behind its length passes 1, and its records can't fill it.
    let mut long = SAMPLE.to_vec();
    long.resize(2 + 6276, 0);
    assert_eq!(judge_table(&with_length(long.clone())), Err(4));
    long.push(0);
    assert_eq!(judge_table(&with_length(long)), Err(1));
}

#[test]
fn acts_up_to_the_limit_pass() {
    for limit in 1..=16 {
        let table = four_channels(limit);
        let mut records = vec![step(0)];
        (0..=limit).for_each(|i| records.push(feed(i % 4, 9)));
        records.extend(vec![step(0); 2 * limit as usize + 1]);
        let codes: Vec<u8> = answers(&encode_table(&table), &records).iter().map(|answer| answer.0).collect();
        assert_eq!(codes.iter().filter(|&&code| code == 1).count(), limit as usize);
        assert_eq!(codes.last(), Some(&37));
    }
}

#[test]
fn saved_lists_get_full() {
    for limit in 1..=16 {
        let table = four_channels(limit);
        let mut cabinet = Cabinet::new(&table);
        let records = fullest(limit);
        let (pulled, lead) = records.split_last().unwrap();
        assert!(lead.iter().all(|&record| cabinet.answer(record).code < 32));
        let saved = |cabinet: &Cabinet| cabinet.processes[0].backup.as_ref().map(|backup| backup.saved.len());
        assert_eq!(saved(&cabinet), Some(most_saved(limit) as usize));
        // No further word: every channel is held, and a take is 37.
        (0..4).for_each(|k| assert_eq!(cabinet.answer(feed(k, 1)).code, 39));
        assert_eq!(cabinet.answer(step(0)).code, 37);
        assert_eq!(cabinet.answer(*pulled).code, 0);
        let words: Vec<u32> = cabinet.processes[0].inbox.iter().map(|message| message.word).collect();
        assert_eq!(words, (100..100 + most_saved(limit) as u32).collect::<Vec<_>>());
    }
}

#[test]
fn buffers() {
    let schedule = encode_schedule(&sample_schedule());
    let needed = Lent { answers: 120, reasons: 20, report: 20, origins: 40 };
    assert_eq!(Lent::needed(20, 1), needed);
    // Each set of buffers one byte under, as a number whose lowest bit stands for the answers: 11 for two of them, then 12, then 51.
    let numbers: Vec<u8> = needed.shortened().map(|lengths| judge_run(&SAMPLE, &schedule, lengths).err().unwrap_or(0)).collect();
    assert_eq!(numbers, [0, 11, 11, 11, 12, 11, 11, 11, 51, 11, 11, 11, 12, 11, 11, 11]);
    // Bytes beyond are untouched, and a refused run writes nothing.
    let accepted = run(&SAMPLE, &schedule, Lent { answers: 126, reasons: 22, report: 23, origins: 43 });
    assert_eq!(accepted.outcome, Outcome { number: 0, records: 20, quiet: true });
    assert_eq!((&accepted.lent.answers[114..], &accepted.lent.report[18..]), (&[0; 12][..], &[0; 5][..]));
    assert_eq!(
        (&accepted.lent.reasons[18..], &accepted.lent.origins[36..]),
        (&[16, 0, 0, 0][..], &[0, 2, 255, 255, 0, 0, 0][..])
    );
    for (lengths, number) in needed.shortened().zip(numbers).skip(1) {
        let refused = run(&SAMPLE, &schedule, lengths);
        assert_eq!(refused.outcome, Outcome { number, records: 0, quiet: false });
        assert!(refused.lent.list().concat().iter().all(|&byte| byte == 0));
    }
}

#[test]
fn schedules() {
    let number = |bytes: &[u8]| judge_schedule(bytes).err().unwrap_or(0);
    assert_eq!(number(&[0, 1, 1]), 0);
    assert_eq!(number(&[0, 1]), 9);
    assert_eq!(number(&[]), 9);
    assert_eq!(number(&[0, 1, 2]), 10);
    assert_eq!(number(&[0, 2, 2, 1]), 9);
    assert_eq!(number(&[0, 7, 1, 9, 9, 9, 9, 9, 9]), 0);
    assert_eq!(number(&[0, 8, 1, 9, 9, 9, 9, 9, 9]), 9);
    assert_eq!(number(&encode_schedule(&[step(0); 10_000])), 0);
    assert_eq!(number(&encode_schedule(&[step(0); 10_001])), 9);
}

#[test]
fn pages_that_are_refused() {
    assert_eq!(page(&[]), "refused 1\n");
    assert_eq!(page(&[0]), "refused 1\n");
    assert_eq!(page(&SAMPLE), "refused 9\n");
    assert_eq!(page(&SAMPLE[..36]), "refused 1\n");
    // W-207: "The table's length limit becomes 6,276".
    assert_eq!(page(&[0x18, 0x84]), "refused 1\n");
    assert_eq!(page(&[0x18, 0x85]), "refused 1\n");
    assert_eq!(page(&[SAMPLE.as_slice(), &[0, 1, 1]].concat()), "records 0\nprocess 0 0 0 0 0 0 0 0 0\nquiet 1\n");
    // M2 through the program: 36 bytes of table, whose last instruction lacks a byte.
    let mut parted = SAMPLE;
    parted[1] = 0x22;
    assert_eq!(page(&parted), "refused 4\n");
}
