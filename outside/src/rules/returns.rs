//! A repaired board comes back: W-210's sentences, each with a few records and the answers written by hand.
use super::limits::{four_channels, fullest};
use super::reader::Instruction::{Jump, Send, Set, Take};
use super::reader::{judge_table, Channel, Instruction, Process, Record, Table, OUTSIDE};
use super::sample::{carry, crash, feed, give_back, resync, sample_schedule, step, sync, SAMPLE};
use super::simulator::Cabinet;

/// Code, a, word and cause of each answer, and the cabinet that is left.
fn run<'t>(table: &'t Table, records: &[Record]) -> (Vec<(u8, u8, u32, u8)>, Cabinet<'t>) {
    let mut cabinet = Cabinet::new(table);
    let answers = records.iter().map(|&record| cabinet.answer(record)).map(|a| (a.code, a.a, a.word, a.cause)).collect();
    (answers, cabinet)
}

/// The answers to the last records.
fn last<const N: usize>(table: &Table, lead: &[Record], records: [Record; N]) -> [(u8, u8, u32, u8); N] {
    let (answers, _) = run(table, &[lead, &records].concat());
    answers[lead.len()..].try_into().unwrap()
}

fn sample() -> Table {
    judge_table(&SAMPLE).unwrap()
}

/// One process on board 0 with its backup on board 1, which reads channel 0 from the outside and sends on channel 1.
fn table(program: &[Instruction]) -> Table {
    let ends = [(OUTSIDE, 0), (0, OUTSIDE)];
    let mut table = Table::new(2, ends.map(|(sender, reader)| Channel { sender, reader }).to_vec());
    table.processes.push(Process::new(0, 1, program.to_vec()));
    table
}

const DONE: (u8, u8, u32, u8) = (0, 0, 0, 3);
const CRASHED: (u8, u8, u32, u8) = (0, 0, 0, 2);

#[test]
fn any_record() {
    // "Neither move is unknown any more under 32, and both take 33"; "under 33, move 6 has cause 1 and move 7 cause 0".
    let records = [Record { word: 1, ..give_back(9) }, Record { word: 1, ..resync(9) }, give_back(2), resync(1), give_back(255)];
    assert_eq!(last(&sample(), &[], records), [(32, 9, 0, 1), (32, 9, 0, 1), (33, 2, 0, 1), (33, 1, 0, 0), (33, 255, 0, 1)]);
}

#[test]
fn there_and_back() {
    let table = sample();
    let records = [
        give_back(0), // live
        resync(0),    // has a backup
        crash(0),
        resync(0), // its other board is dead
        give_back(1),
        give_back(0),
        give_back(0),
        carry(0),
        resync(0),
        sync(0), // no backup yet
        resync(0),
        crash(0), // no backup yet, whichever board it is
        crash(1),
        carry(1), // the resync: its record is on board 0 now
        resync(0),
        sync(0),
        carry(1),
        crash(1), // and it goes on there
        carry(1),
    ];
    let (answers, cabinet) = run(&table, &records);
    let wanted = [
        (48, 0, 0, 0),
        (50, 0, 0, 0),
        CRASHED,
        (50, 0, 0, 0),
        (48, 1, 0, 0),
        DONE,
        (48, 0, 0, 0),
        (42, 0, 0, 0),
        DONE,
        (40, 0, 0, 0),
        (41, 0, 0, 3),
        (44, 0, 0, 0),
        (44, 1, 0, 0),
        (5, 0, 0, 3),
        (50, 0, 0, 0),
        (0, 0, 0, 1),
        (5, 0, 0, 0),
        CRASHED,
        (34, 1, 0, 0),
    ];
    assert_eq!(answers, wanted);
    assert_eq!((cabinet.processes[0].board, cabinet.quiet()), (0, true));
}

#[test]
fn hold_back_waits() {
    // The sample's crash leaves a hold-back of 1, which its third step from there on lowers.
    let lead = [&sample_schedule()[..11], &[give_back(0), step(0), step(0)]].concat();
    let answers = last(&sample(), &lead, [resync(0), step(0), resync(0)]);
    assert_eq!(answers, [(49, 0, 0, 0), (3, 1, 5, 0), DONE]);
}

#[test]
fn crowded_channels() {
    // 48 unread words, 12 on each of four channels; they are taken in turn. "more than 8": exactly 8 passes.
    let table = four_channels(8);
    let mut lead = [&fullest(8)[..], &[give_back(0), step(0)]].concat();
    for taken in 0..15 {
        assert_eq!(last(&table, &lead, [resync(0)]), [(49, 0, 0, 0)], "{taken} words taken");
        lead.extend([step(0), step(0)]);
    }
    // The 16th word is the last of those that were too many on the fourth channel.
    assert_eq!(last(&table, &lead, [resync(0), step(0), resync(0)]), [(49, 0, 0, 0), (1, 3, 115, 0), DONE]);
}

#[test]
fn crowded_by_queued_words() {
    // Four words taken and not synced, which are unread again after the crash, and five in the sender's queue.
    let mut table = Table::new(3, vec![Channel { sender: 1, reader: 0 }]);
    table.processes.push(Process::new(0, 1, vec![Take { a: 0, channel: 0 }, Jump { a: 0, place: 0 }]));
    table.processes.push(Process::new(2, 1, vec![Set { a: 0, word: 7 }, Send { a: 0, channel: 0 }, Jump { a: 0, place: 1 }]));
    let table = table.limited(|_| 16);
    let lead = [&[step(1); 9][..], &[carry(2); 4], &[step(0); 8], &[step(1); 10], &[crash(0), give_back(0)]].concat();
    let answers = last(&table, &lead, [resync(0), carry(2), resync(0), step(0), resync(0)]);
    assert_eq!(answers, [(49, 0, 0, 0), (4, 0, 7, 0), (49, 0, 0, 0), (1, 0, 7, 0), DONE]);
}

/// Process 0 on board 0 and process 1 on board 1, each the other's backup board; process 1 sends words of its own for ever.
fn crossed() -> Table {
    let mut table = Table::new(2, vec![Channel { sender: OUTSIDE, reader: 0 }, Channel { sender: 1, reader: OUTSIDE }]);
    table.processes.push(Process::new(0, 1, vec![Take { a: 0, channel: 0 }, Jump { a: 0, place: 0 }]));
    table.processes.push(Process::new(1, 0, vec![Set { a: 0, word: 7 }, Send { a: 0, channel: 1 }, Jump { a: 0, place: 1 }]));
    table
}

#[test]
fn an_old_sync_waits() {
    // Of a survivor: "an ordinary sync left from before the crash still answers 6", and until then 41.
    let lead = [sync(1), crash(0), give_back(0)];
    let answers = last(&crossed(), &lead, [resync(1), carry(1), resync(1), resync(1), carry(1), sync(1)]);
    assert_eq!(answers, [(41, 1, 0, 3), (6, 1, 0, 0), DONE, (41, 1, 0, 3), (5, 1, 0, 3), (0, 0, 0, 1)]);
    // One in a lost queue waits no longer.
    let answers = last(&crossed(), &[sync(1), crash(1), give_back(1)], [resync(1), carry(0)]);
    assert_eq!(answers, [DONE, (5, 1, 0, 3)]);
}

#[test]
fn a_full_queue() {
    // 32 words of process 1, which owes nothing without a backup; then 41 goes before 38, and 50 before both.
    let mut lead = vec![crash(0)];
    lead.extend([step(1); 64]);
    assert_eq!(last(&crossed(), &lead, [resync(1), give_back(0), resync(1)]), [(50, 1, 0, 0), DONE, (38, 1, 0, 3)]);
    let full = [&lead[..], &[give_back(0), carry(1)]].concat();
    assert_eq!(last(&crossed(), &full, [resync(1), resync(1), carry(1)]), [DONE, (41, 1, 0, 3), (4, 1, 7, 0)]);
}

#[test]
fn words_since_issue() {
    // Takes of 5 and 9 since the issue are not in the record's state, and 9 has arrived since: the record has all three.
    let program = [Take { a: 0, channel: 0 }, Send { a: 0, channel: 1 }, Jump { a: 0, place: 0 }];
    let table = table(&program);
    let records = [
        crash(1),
        give_back(1),
        feed(0, 5),
        feed(0, 7),
        resync(0),
        step(0),
        feed(0, 9),
        step(0),
        carry(0), // the resync
        carry(0), // 5, counted
    ];
    let (answers, mut cabinet) = run(&table, &records);
    assert_eq!(answers[8..], [(5, 0, 0, 3), (4, 1, 5, 0)]);
    let saved =
        |cabinet: &Cabinet| cabinet.processes[0].backup.as_ref().unwrap().saved.iter().map(|m| m.word).collect::<Vec<_>>();
    assert_eq!(saved(&cabinet), [5, 7, 9]);
    // A sync then drops what was taken since the resync's issue.
    let mut synced = cabinet.clone();
    assert_eq!([sync(0), carry(0)].map(|record| synced.answer(record).word), [0, 1]);
    assert_eq!(saved(&synced), [7, 9]);
    assert_eq!(cabinet.answer(crash(0)).code, 0);
    let end = &cabinet.processes[0];
    let unread: Vec<u32> = end.inbox.iter().map(|message| message.word).collect();
    assert_eq!((end.board, end.place, end.hold_back, unread), (1, 0, 1, vec![5, 7, 9]));
}

#[test]
fn takes_start_from_0() {
    // 5 was taken before the issue and is in no copy; the next sync drops 7 alone.
    let table = table(&[Take { a: 0, channel: 0 }, Jump { a: 0, place: 0 }]);
    let lead = [crash(1), give_back(1), feed(0, 5), feed(0, 7), feed(0, 9), step(0), step(0), resync(0), step(0)];
    let answers = last(&table, &lead, [carry(0), sync(0), carry(0)]);
    assert_eq!(answers, [(5, 0, 0, 3), (0, 0, 0, 1), (5, 0, 1, 0)]);
}

#[test]
fn words_in_front_are_not_counted() {
    let program = [Set { a: 0, word: 3 }, Send { a: 0, channel: 1 }, Send { a: 0, channel: 1 }];
    let table = table(&program);
    let records = [crash(1), give_back(1), step(0), step(0), resync(0), step(0), carry(0), carry(0), carry(0), crash(0)];
    let (answers, cabinet) = run(&table, &records);
    assert_eq!(answers[6..], [(4, 1, 3, 0), (5, 0, 0, 3), (4, 1, 3, 0), CRASHED]);
    // The first word was sent before the issue, and isn't held back.
    assert_eq!((cabinet.processes[0].place, cabinet.processes[0].hold_back), (2, 1));
}

#[test]
fn limited_while_it_waits() {
    // Without a backup nothing is owed; from issue on acts and instructions count from 0, and a sync is still 40.
    let loop_of_words = [Take { a: 0, channel: 0 }, Jump { a: 0, place: 0 }];
    let words = table(&loop_of_words).limited(|_| 2);
    let mut lead = vec![crash(1), give_back(1)];
    lead.extend([feed(0, 9), step(0), step(0)].repeat(3));
    lead.push(resync(0));
    lead.extend([feed(0, 9), step(0), step(0)].repeat(2));
    let answers = last(&words, &lead, [step(0), feed(0, 9), step(0), sync(0), carry(0), step(0), sync(0), step(0)]);
    let owes = (37, 0, 0, 0);
    assert_eq!(answers, [(36, 0, 0, 0), (4, 0, 9, 1), owes, (40, 0, 0, 0), (5, 0, 0, 3), owes, (0, 0, 0, 1), (1, 0, 9, 0)]);
    let counting = table(&[Set { a: 0, word: 1 }, Jump { a: 0, place: 0 }]);
    let lead = [&[crash(1), give_back(1)][..], &[step(0); 70], &[resync(0)], &[step(0); 64]].concat();
    assert_eq!(last(&counting, &lead, [step(0), carry(0), step(0)]), [(37, 0, 0, 1), (5, 0, 0, 3), (37, 0, 0, 1)]);
}

#[test]
fn boards_of_nobody() {
    // "exactly while some process has no backup": dead boards alone don't matter.
    let mut table = sample();
    table.boards = 4;
    let records =
        [crash(2), crash(3), give_back(2), crash(2), crash(2), crash(0), crash(3), crash(1), give_back(3), give_back(3)];
    let codes: Vec<u8> = run(&table, &records).0.iter().map(|answer| answer.0).collect();
    assert_eq!(codes, [0, 0, 0, 0, 34, 0, 34, 44, 0, 48]);
}

#[test]
fn a_return_keeps_no_queue() {
    let table = crossed();
    let records = [step(1), step(1), sync(1), crash(1), give_back(1), carry(1)];
    assert_eq!(run(&table, &records).0[4..], [DONE, (42, 1, 0, 0)]);
}
