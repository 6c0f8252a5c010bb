//! What stands beneath a line of `ks explain`, in generated runs: of a crash and a carried sync it is what other proved runs say, and what would
//! help a refused record helps.
mod common;

use common::explained;
use desk::explain::{Asked, Input};
use desk::proved::{run_records, Ran};
use desk::words::{holds, list, many};
use kunzeastylus::{Code, Reason, Record};
use outside::random::Random;
use outside::rules::generate::{encode_schedule, encode_table, schedule, table};
use outside::rules::reader;
use outside::rules::repairs::{crash_after_crash, row};

const SEED: u64 = 0x2545_F491_4F6C_DD1D;

/// A run, and the proved runs of a beginning of it with other records behind that.
struct Tried {
    input: Input,
    records: Vec<Record>,
}

impl Tried {
    fn new(table: &reader::Table, records: &[reader::Record]) -> Tried {
        let input = Input { table: encode_table(table), schedule: encode_schedule(records) };
        let records = Record::read(&input.schedule).expect("a sound schedule");
        Tried { input, records }
    }

    fn ran(&self, beginning: usize, more: &[Record]) -> Ran {
        run_records(&self.input.table, &[&self.records[..beginning], more].concat()).expect("a sound run")
    }

    /// What stands beneath the line of record `n`, from 0.
    fn beneath(&self, n: usize) -> Vec<String> {
        let text = explained(&self.input, &[], Asked { from: n + 1, to: n + 1, all: true, ..Asked::default() });
        text.lines().skip(2).take_while(|line| line.starts_with("       ")).map(|line| line.trim().to_string()).collect()
    }

    /// Of a crash, what is said of it is what other runs say: the report, what could have been carried before it, and whose sync is refused behind it
    /// for want of a backup. How many entries were lost.
    fn crash(&self, n: usize) -> usize {
        let (said, board) = (self.beneath(n), self.records[n].a);
        let (before, after) = (self.ran(n, &[Record::carry(board); 33]), self.ran(n + 1, &[]));
        let moved = after.ends.iter().enumerate().filter(|(p, _)| before.ends[*p].board == board);
        let moved = moved.map(|(p, end)| {
            let (unread, held) = (many(end.unread.into(), "word", "words"), holds(end.hold_back.into()));
            format!("process {p} goes on at board {}, place {}, with {unread} unread; it {held}", end.board, end.place)
        });
        assert!(moved.eq(said.iter().filter(|line| line.contains(" goes on at ")).cloned()), "{said:?}");
        let carried = before.answers[n..].iter().filter(|answer| !answer.code.refused()).count();
        let queue = said.iter().find_map(|line| line.strip_prefix("lost with its queue: "));
        assert_eq!(queue.map_or(0, entries), carried, "{said:?}");
        let bare = |p: &u8| self.ran(n + 1, &[Record::sync(*p)]).answers[n + 1].code == Code::NoBackup;
        let bare: Vec<String> = (0..self.input.table[4]).filter(bare).map(|p| format!("process {p}")).collect();
        let named = said.iter().find_map(|line| line.strip_prefix("no backup now: ")).unwrap_or("nothing");
        assert_eq!(named, list(&bare), "{said:?}");
        carried
    }

    /// Of a carried sync, as many words are named as its answer says were dropped.
    fn sync(&self, n: usize, dropped: u32) {
        let said = self.beneath(n).concat();
        let named = said.strip_prefix("dropped ").map_or("", |rest| rest.split("; its backup").next().unwrap_or_default());
        let each = named.split(" and ").flat_map(|part| part.split(", ")).filter_map(|part| part.split(" of ").next());
        assert_eq!(each.map(|words| words.split_whitespace().count()).sum::<usize>(), dropped as usize, "{said}");
    }
}

#[test]
fn as_runs_say() {
    let mut random = Random::new(SEED);
    let (mut crashes, mut lost, mut dropped) = (0, 0, 0);
    for _ in 0..100 {
        let table = row(&mut random);
        let tried = Tried::new(&table, &crash_after_crash(&mut random, &table, 3, 150));
        for (n, answer) in tried.ran(tried.records.len(), &[]).answers.into_iter().enumerate() {
            match answer.reason {
                Reason::BoardCrashed => (crashes, lost) = (crashes + 1, lost + tried.crash(n)),
                Reason::SyncCarried => {
                    tried.sync(n, answer.word);
                    dropped += answer.word;
                }
                _ => (),
            }
        }
    }
    assert!(crashes > 50 && lost > 50 && dropped > 50, "{crashes} {lost} {dropped}");
}

/// Of an unquiet end the reasons are named that other runs find: a board has something to carry, a process neither has halted nor waits for
/// a word.
#[test]
fn unquiet() {
    let mut random = Random::new(SEED);
    let (mut quiet, mut unquiet) = (0, 0);
    for i in 0..200 {
        let table = if i % 2 == 0 { table(&mut random) } else { row(&mut random) };
        let records = random.pick(&[0, 5, 20, 60]);
        let tried = Tried::new(&table, &schedule(&mut random, &table, records));
        let n = tried.records.len();
        let code = |record: Record| tried.ran(n, &[record]).answers[n].code;
        let boards = (0..tried.input.table[3]).filter(|board| !code(Record::carry(*board)).refused());
        let going = (0..tried.input.table[4]).filter(|p| !matches!(code(Record::step(*p)), Code::Halted | Code::NoWord));
        let boards = boards.map(|board| format!("the queue of board {board} has "));
        let wanted: Vec<String> = boards.chain(going.map(|p| format!("process {p} "))).collect();
        let text = explained(&tried.input, &[], Asked { from: n + 1, ..Asked::default() });
        let last = text.lines().last().expect("an end");
        let is_quiet = (last.starts_with("quiet: "), tried.ran(n, &[]).quiet);
        assert_eq!(is_quiet, (wanted.is_empty(), wanted.is_empty()), "{last}");
        if let Some(reasons) = last.strip_prefix("not quiet: ") {
            let named = reasons.split("; ").filter(|reason| !reason.starts_with("the cabinet stands still"));
            let named: Vec<&str> = named.collect();
            assert!(
                named.len() == wanted.len() && named.iter().zip(&wanted).all(|(it, wanted)| it.starts_with(wanted)),
                "{last}"
            );
        }
        (quiet, unquiet) = (quiet + usize::from(wanted.is_empty()), unquiet + usize::from(!wanted.is_empty()));
    }
    assert!(quiet > 10 && unquiet > 50, "{quiet} {unquiet}");
}

/// How many entries a queue in words has.
fn entries(queue: &str) -> usize {
    let each = queue.split(" and ").flat_map(|part| part.split(", "));
    let times = |entry: &str| entry.split_once(" (").and_then(|(_, rest)| rest.split(' ').next()?.parse().ok());
    each.map(|entry| times(entry).unwrap_or(1)).sum()
}

/// The records that a help names, each as often as it says.
fn named(help: &str) -> Vec<Record> {
    let part = |part: &str| -> Vec<Record> {
        let words: Vec<&str> = part.split([' ', ',']).filter(|word| !word.is_empty()).collect();
        let number = |word: &str| word.parse().unwrap_or_else(|_| panic!("{part}"));
        match words[..] {
            ["carry", "board", board] => vec![Record::carry(number(board))],
            ["carry", "board", board, times, "times"] => vec![Record::carry(number(board)); number(times).into()],
            ["return", "board", board, ..] => vec![Record::return_board(number(board))],
            ["sync", "process", p] => vec![Record::sync(number(p))],
            ["resync", "process", p, "and", "carry", "that"] => vec![Record::resync(number(p))],
            _ => panic!("{part}"),
        }
    };
    let told = help.rsplit(": ").next().expect("a help");
    told.split(", then ").flat_map(part).collect()
}

/// Carries of each board until its queue is empty.
fn all_carried(boards: u8) -> impl Iterator<Item = Record> {
    (0..boards).flat_map(|board| [Record::carry(board); 33])
}

/// What would help helps: behind the records that it names, in that order, the same record isn't refused with that number any more.
#[test]
fn help_helps() {
    let mut random = Random::new(SEED);
    let mut helped = [0; 256];
    for i in 0..200 {
        let table = if i % 4 == 0 { table(&mut random) } else { row(&mut random) };
        let records = match i % 2 {
            0 => crash_after_crash(&mut random, &table, 2, 120),
            _ => schedule(&mut random, &table, 200),
        };
        // Where little is carried, queues fill.
        let kept = |(n, record): &(usize, reader::Record)| i % 3 > 0 || record.kind != 3 || n % 9 == 0;
        let records = records.into_iter().take(300).enumerate().filter(kept).map(|(_, record)| record);
        let records: Vec<reader::Record> = records.collect();
        let tried = Tried::new(&table, &records);
        for (n, answer) in
            tried.ran(tried.records.len(), &[]).answers.iter().enumerate().filter(|(_, answer)| answer.code.refused())
        {
            let text = tried.beneath(n);
            let helps = || text.iter().map(String::as_str);
            let done = match answer.code {
                Code::NoWord => helps().find(|help| help.contains(" is in the queue of ")).map(named),
                Code::BoardDead | Code::QueueFull | Code::SyncWaiting => helps().next().map(named),
                Code::HasBackup => helps().find(|help| help.contains(" is dead")).map(named),
                Code::OwesSync => helps().next().map(named),
                // Once everything that waits is carried, too.
                Code::NoBackup | Code::SomeUnbacked => Some(helps().flat_map(named).chain(all_carried(table.boards)).collect()),
                _ => None,
            };
            let Some(done) = done else { continue };
            let again = tried.ran(n, &[&done, &tried.records[n..=n]].concat()).answers;
            // What stops a sync or a resync that is named is told by an answer of its own.
            let stopped = again[n..again.len() - 1].iter().any(|answer| matches!(answer.code, Code::QueueFull | Code::NotReady));
            let same = again.last().map(|last| last.code) == Some(answer.code);
            assert!(!same || stopped, "record {}: {text:?}", n + 1);
            helped[usize::from(answer.code.number())] += usize::from(!same);
        }
    }
    for (code, least) in [(34, 20), (36, 100), (37, 100), (38, 20), (40, 50), (41, 100), (44, 20), (50, 20)] {
        assert!(helped[code] >= least, "{code}: {}", helped[code]);
    }
}
