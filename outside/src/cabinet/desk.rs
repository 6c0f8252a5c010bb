//! The service desk's cases of a pulled board: the last lines of each page, written by hand from document 01, beside those that the
//! proved call's bytes give. The simulator has no part in this.
use crate::{returned, taken_back};
use outside::call::ks_run;
use outside::rules::generate::{encode_schedule, encode_table};
use outside::rules::lent::Lent;
use outside::rules::limits;
use outside::rules::page::lines;
use outside::rules::reader::Instruction::{Add, First, Jump, Send, Set, Take};
use outside::rules::reader::{judge_table, Channel, Instruction, Process, Record, Table, OUTSIDE};
use outside::rules::run::{Outcome, Run};
use outside::rules::sample::{carry, crash, feed, sample_schedule, step, sync, SAMPLE};

pub struct Case {
    pub name: &'static str,
    pub table: Vec<u8>,
    pub records: Vec<Record>,
    /// The page's last lines.
    pub lines: &'static [&'static str],
}

fn table(boards: u8, channels: &[(u8, u8)], processes: &[(u8, u8, &[Instruction])]) -> Vec<u8> {
    encode_table(&said(boards, channels, processes))
}

fn said(boards: u8, channels: &[(u8, u8)], processes: &[(u8, u8, &[Instruction])]) -> Table {
    let mut table = Table::new(boards, channels.iter().map(|&(sender, reader)| Channel { sender, reader }).collect());
    table.processes =
        processes.iter().map(|&(primary, backup, program)| Process::new(primary, backup, program.to_vec())).collect();
    table
}

/// One process that sends a word again and again to the outside.
pub fn sender() -> Vec<u8> {
    let send = Send { a: 0, channel: 0 };
    table(2, &[(0, OUTSIDE)], &[(0, 1, &[Set { a: 0, word: 9 }, send, send, send, Jump { a: 0, place: 1 }])])
}

/// One process that adds for ever: SET once, then ADD and JUMP.
fn adding() -> Vec<u8> {
    table(2, &[(0, OUTSIDE)], &[(0, 1, &[Set { a: 0, word: 1 }, Add { a: 1, b: 0 }, Jump { a: 0, place: 1 }])])
}

fn steps(n: usize) -> Vec<Record> {
    vec![step(0); n]
}

/// One process that reads three channels from the outside: a word of channel 1, any word, a word of channel 2.
fn reader() -> Vec<u8> {
    let program = [Take { a: 0, channel: 1 }, First { a: 0, mask: 0b111 }, Take { a: 2, channel: 2 }];
    table(2, &[(OUTSIDE, 0); 3], &[(0, 1, &program)])
}

/// Two processes on board 0, one with its backup on board 1 and one on board 2, each waiting for a word from the outside. Board 3 has
/// nothing.
fn waiting() -> Vec<u8> {
    let process = |channel| [Take { a: 0, channel }];
    table(4, &[(OUTSIDE, 0), (OUTSIDE, 1)], &[(0, 1, &process(0)), (0, 2, &process(1))])
}

/// Process 0 on board 0 and process 1 on board 1, each the other's backup board. Process 1 sends what it takes from the outside, to the
/// outside and to process 0.
pub fn crossed() -> Vec<u8> {
    let both = [Take { a: 0, channel: 0 }, Send { a: 0, channel: 1 }, Send { a: 0, channel: 2 }, Jump { a: 0, place: 0 }];
    table(3, &[(OUTSIDE, 1), (1, OUTSIDE), (1, 0)], &[(0, 1, &[Take { a: 0, channel: 2 }]), (1, 0, &both)])
}

/// One process that sends a word to itself, and what it reads to the outside.
fn to_itself() -> Vec<u8> {
    let program = [Set { a: 0, word: 3 }, Send { a: 0, channel: 0 }, Take { a: 1, channel: 0 }, Send { a: 1, channel: 1 }];
    table(2, &[(0, 0), (0, OUTSIDE)], &[(0, 1, &program)])
}

/// One process that reads four channels from the outside, for ever, in version 1.
fn four_channels() -> Vec<u8> {
    let program = [Set { a: 3, word: 1 }, First { a: 0, mask: 0b1111 }, Jump { a: 3, place: 1 }];
    table(2, &[(OUTSIDE, 0); 4], &[(0, 1, &program)])
}

/// The same in version 2, with a limit.
fn four_limited(limit: u8) -> Vec<u8> {
    encode_table(&limits::four_channels(limit))
}

/// The sender of one word again and again, with a limit of 16.
fn sender_limited() -> Vec<u8> {
    encode_table(&judge_table(&sender()).expect("a sound table").limited(|_| 16))
}

/// Two processes that take for ever what they are fed, the first with a limit of 1 and the second with one of 3.
fn two_limits() -> Vec<u8> {
    let process = |channel| [Take { a: 0, channel }, Jump { a: 0, place: 0 }];
    let table = said(2, &[(OUTSIDE, 0), (OUTSIDE, 1)], &[(0, 1, &process(0)), (0, 1, &process(1))]);
    encode_table(&table.limited(|p| [1, 3][p]))
}

/// One process that adds up what it takes, and sends nothing.
pub fn adder() -> Vec<u8> {
    let program = [Set { a: 2, word: 1 }, Take { a: 0, channel: 0 }, Add { a: 1, b: 0 }, Jump { a: 2, place: 1 }];
    table(2, &[(OUTSIDE, 0)], &[(0, 1, &program)])
}

pub fn cases() -> Vec<Case> {
    let mut cases = Vec::new();
    let mut case = |name, table, records: &[Record], lines| cases.push(Case { name, table, records: records.to_vec(), lines });
    let sample = sample_schedule();
    // 5 was carried before the crash and is held back; 12 was in the lost queue and is not. Both words are saved, none being dropped.
    case(
        "hold-back above 0 after the crash",
        SAMPLE.to_vec(),
        &sample[..11],
        &["11 0 0 0", "process 0 1 0 2 1 0 0 0 0", "quiet 0"],
    );
    case(
        "the word carried before the crash is held back",
        SAMPLE.to_vec(),
        &sample[..14],
        &["14 3 1 5", "process 0 1 3 1 0 5 5 0 0", "quiet 0"],
    );
    let sent = [step(0), step(0), step(0), step(0), carry(0), carry(0), crash(0)];
    case("two of three words carried: hold-back 2", sender(), &sent, &["7 0 0 0", "process 0 1 0 0 2 0 0 0 0", "quiet 0"]);
    let again = [&sent[..], &[step(0), step(0), step(0), step(0), carry(1)]].concat();
    case(
        "two words held back, the lost one sent again",
        sender(),
        &again,
        &["8 0 0 0", "9 3 0 9", "10 3 0 9", "11 2 0 9", "12 4 0 9", "process 0 1 4 0 0 9 0 0 0", "quiet 0"],
    );
    // The count goes to 0 when a sync is carried, and this one never is.
    let waits = [step(0), step(0), carry(0), sync(0), crash(0), step(0), step(0)];
    case(
        "a word carried, then a sync that is lost: hold-back 1",
        sender(),
        &waits[..5],
        &["5 0 0 0", "process 0 1 0 0 1 0 0 0 0", "quiet 0"],
    );
    case(
        "a word carried, then a sync that is lost: not sent again",
        sender(),
        &waits,
        &["6 0 0 0", "7 3 0 9", "process 0 1 2 0 0 9 0 0 0", "quiet 0"],
    );
    let fed = [feed(0, 10), feed(1, 20), feed(2, 30), feed(1, 21), step(0), sync(0), carry(0), step(0), step(0), crash(0)];
    // The sync has dropped 20, the oldest on its slot, and not 10, the oldest of all; what was taken since is unread again.
    case(
        "unread words on several channels",
        reader(),
        &fed,
        &["5 1 1 20", "6 0 0 0", "7 5 0 1", "8 1 0 10", "9 1 2 30", "10 0 0 0", "process 0 1 1 3 0 20 0 0 0", "quiet 0"],
    );
    let taken = [&fed[..], &[step(0), step(0), step(0)]].concat();
    case(
        "the same words taken again, one left",
        reader(),
        &taken,
        &["11 1 0 10", "12 1 2 30", "13 35 0 0", "process 0 1 3 1 0 10 0 30 0", "quiet 1"],
    );
    case(
        "a sync lost in the pulled board's queue",
        reader(),
        &[feed(1, 10), step(0), sync(0), crash(0), sync(0)],
        &["2 1 1 10", "3 0 0 0", "4 0 0 0", "5 40 0 0", "process 0 1 0 1 0 0 0 0 0", "quiet 0"],
    );
    case(
        "processes that never moved, without words",
        waiting(),
        &[crash(0)],
        &["1 0 0 0", "process 0 1 0 0 0 0 0 0 0", "process 1 2 0 0 0 0 0 0 0", "quiet 1"],
    );
    case(
        "a process that never moved, with words",
        waiting(),
        &[feed(1, 7), feed(1, 8), crash(0)],
        &["3 0 0 0", "process 0 1 0 0 0 0 0 0 0", "process 1 2 0 2 0 0 0 0 0", "quiet 0"],
    );
    let other_half = [feed(0, 5), feed(0, 6), step(1), step(1), carry(1), sync(1), crash(0)];
    case(
        "the other half was on the pulled board",
        crossed(),
        &other_half,
        &["7 0 0 0", "process 0 1 0 0 0 0 0 0 0", "process 1 1 2 1 0 5 0 0 0", "quiet 0"],
    );
    let goes_on = [&other_half[..], &[carry(1), sync(1), step(1), carry(1), step(0)]].concat();
    case(
        "the other half pulled: its sync has no backup left, and it goes on",
        crossed(),
        &goes_on,
        &[
            "8 6 1 0",
            "9 40 1 0",
            "10 2 2 5",
            "11 4 2 5",
            "12 1 2 5",
            "process 0 1 1 0 0 5 0 0 0",
            "process 1 1 3 1 0 5 0 0 0",
            "quiet 0",
        ],
    );
    let own = [step(0), step(0), carry(0), crash(0)];
    case("a word to itself is saved and counted", to_itself(), &own, &["4 0 0 0", "process 0 1 0 1 1 0 0 0 0", "quiet 0"]);
    let own = [&own[..], &[step(0), step(0), step(0), step(0), carry(1)]].concat();
    case(
        "a word to itself is read again, not sent again",
        to_itself(),
        &own,
        &["5 0 0 0", "6 3 0 3", "7 1 0 3", "8 2 1 3", "9 4 1 3", "process 0 1 4 0 0 3 3 0 0", "quiet 1"],
    );
    let lost = [step(0), step(0), crash(0), step(0), step(0), carry(1), step(0), step(0), carry(1)];
    case(
        "the pulled board's queue is lost, its word sent anew",
        to_itself(),
        &lost,
        &["4 0 0 0", "5 2 0 3", "6 4 0 3", "7 1 0 3", "8 2 1 3", "9 4 1 3", "process 0 1 4 0 0 3 3 0 0", "quiet 1"],
    );
    let mut held = vec![feed(0, 4); 8];
    held.extend([crash(0), feed(0, 4), step(0), step(0), feed(0, 4)]);
    case(
        "a channel held after the crash, until a word is taken",
        adder(),
        &held,
        &["10 39 0 0", "11 0 0 0", "12 1 0 4", "13 4 0 4", "process 0 1 2 8 0 4 0 1 0", "quiet 0"],
    );
    // Nobody has lost a backup, so that another board may be pulled (W-210).
    case(
        "a board on which nothing ran",
        waiting(),
        &[crash(3), sync(0), carry(0), crash(0), carry(3)],
        &[
            "1 0 0 0",
            "2 0 0 0",
            "3 5 0 0",
            "4 0 0 0",
            "5 34 3 0",
            "process 0 1 0 0 0 0 0 0 0",
            "process 1 2 0 0 0 0 0 0 0",
            "quiet 1",
        ],
    );
    case("48 unread words", four_channels(), &limits::fullest(8), &["83 0 0 0", "process 0 1 0 48 0 0 0 0 0", "quiet 0"]);
    let on = [&limits::fullest(8)[..], &[feed(3, 1), step(0), step(0), step(0), step(0)]].concat();
    case(
        "48 unread words: no further feed, the oldest taken first",
        four_channels(),
        &on,
        &["84 39 3 0", "85 0 0 0", "86 1 0 100", "87 0 0 0", "88 1 1 101", "process 0 1 2 46 0 101 1 0 1", "quiet 0"],
    );
    // Acts 8 ask for a sync; without a backup they don't.
    let mut nine = vec![step(0)];
    (0..8).for_each(|_| nine.extend([feed(0, 4), step(0), step(0), step(0)]));
    nine.extend([feed(0, 4), step(0), crash(1), step(0)]);
    case(
        "acts no longer limit a process whose backup is gone",
        adder(),
        &nine,
        &["35 37 0 0", "36 0 0 0", "37 1 0 4", "process 0 0 2 0 0 4 32 1 0", "quiet 0"],
    );
    // W-204: 64 instructions ask for a sync. It counts from the sync's issue, whether or not that is carried.
    case(
        "a loop that neither reads nor sends stops at its 65th instruction",
        adding(),
        &steps(66),
        &["64 0 0 0", "65 37 0 0", "66 37 0 0", "process 0 0 2 0 0 1 32 0 0", "quiet 0"],
    );
    let two = [&steps(65)[..], &[sync(0)], &steps(65)].concat();
    case(
        "it goes on after a sync, for 64 instructions",
        adding(),
        &two,
        &["130 0 0 0", "131 37 0 0", "process 0 0 2 0 0 1 64 0 0", "quiet 0"],
    );
    let waits = [&two[..], &[crash(0)], &steps(128)].concat();
    case(
        "no sync was carried: 128 instructions again, and 37 no more",
        adding(),
        &waits,
        &["259 0 0 0", "260 0 0 0", "process 0 1 2 0 0 1 64 0 0", "quiet 0"],
    );
    let carried = [&two[..], &[carry(0), crash(0)], &steps(64)].concat();
    case(
        "the sync was carried: 64 instructions again",
        adding(),
        &carried,
        &["196 0 0 0", "197 0 0 0", "process 0 1 2 0 0 1 64 0 0", "quiet 0"],
    );
    // W-207: a sync limit for each process.
    let mut third = vec![step(0), feed(0, 5), feed(1, 6), feed(2, 7)];
    third.extend([&[step(0); 5][..], &[sync(0), step(0)]].concat());
    case(
        "limit 2: a third act only after a sync",
        four_limited(2),
        &third,
        &["7 1 1 6", "8 0 0 0", "9 37 0 0", "10 0 0 0", "11 1 2 7", "process 0 0 2 0 0 7 2 0 1", "quiet 0"],
    );
    case(
        "limit 16: sixteen words are queued, the next owes a sync",
        sender_limited(),
        &steps(23),
        &["21 0 0 0", "22 2 0 9", "23 37 0 0", "process 0 0 2 0 0 9 0 0 0", "quiet 0"],
    );
    let carried = [&steps(22)[..], &[carry(0); 16], &[crash(0)]].concat();
    case(
        "limit 16: sixteen words carried, hold-back 16",
        sender_limited(),
        &carried,
        &["38 4 0 9", "39 0 0 0", "process 0 1 0 0 16 0 0 0 0", "quiet 0"],
    );
    let full = limits::fullest(16);
    case("limit 16: 64 unread words", four_limited(16), &full, &["131 0 0 0", "process 0 1 0 64 0 0 0 0 0", "quiet 0"]);
    let on = [&full[..], &[feed(3, 1), step(0), step(0)]].concat();
    case(
        "limit 16: 64 unread words, no further feed, the oldest taken first",
        four_limited(16),
        &on,
        &["132 39 3 0", "133 0 0 0", "134 1 0 100", "process 0 1 2 63 0 100 0 0 1", "quiet 0"],
    );
    case(
        "limit 1: 34 unread words",
        four_limited(1),
        &limits::fullest(1),
        &["41 0 0 0", "process 0 1 0 34 0 0 0 0 0", "quiet 0"],
    );
    let mut two = vec![feed(0, 5), feed(0, 5)];
    two.extend([feed(1, 6); 4]);
    two.extend([step(0); 3]);
    two.extend([step(1); 7]);
    case(
        "limits 1 and 3: to each process its own",
        two_limits(),
        &two,
        &[
            "7 1 0 5",
            "8 0 0 0",
            "9 37 0 0",
            "10 1 1 6",
            "11 0 0 0",
            "12 1 1 6",
            "13 0 0 0",
            "14 1 1 6",
            "15 0 0 0",
            "16 37 1 0",
            "process 0 0 0 1 0 5 0 0 0",
            "process 1 0 0 1 0 6 0 0 0",
            "quiet 0",
        ],
    );
    cases.extend(returned::cases());
    cases.extend(taken_back::cases());
    cases
}

/// The page that the proved call's bytes give.
fn page(case: &Case) -> String {
    let processes = case.table[4] as usize;
    let mut lent = Lent::needed(case.records.len(), processes).filled(0xEE);
    let number = ks_run(&case.table, &encode_schedule(&case.records), lent.lend());
    let outcome = Outcome { number: number as u8, records: (number >> 32) as usize, quiet: number >> 8 & 1 == 1 };
    lines(&Run { outcome, lent }, processes)
}

/// Runs every case and shows the lines compared; false if one differs.
pub fn check() -> bool {
    let mut all = true;
    for case in cases() {
        let page = page(&case);
        let page: Vec<&str> = page.lines().collect();
        let shown = &page[page.len().saturating_sub(case.lines.len())..];
        let records = page[0] == format!("records {}", case.records.len());
        let equal = records && shown == case.lines;
        println!("service desk: {}: {}", case.name, if equal { "ok" } else { "DIFFERENT" });
        for (i, wanted) in case.lines.iter().enumerate() {
            match shown.get(i) {
                Some(line) if line == wanted => println!("    {line}"),
                line => println!("    {}, by hand: {wanted}", line.unwrap_or(&"no line")),
            }
        }
        all &= equal;
    }
    all
}
