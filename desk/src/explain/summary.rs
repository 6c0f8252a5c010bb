//! A run in a page, however long it is: answers by kind for each process, board and channel that records are of, words by channel, and the
//! first and the last crash.
use super::Explaining;
use crate::words::many;
use kunzeastylus::{Code, End, Fate, Move, Reason};
use std::collections::BTreeMap;
use std::fmt::Write;

/// Of what records are: in this order.
#[derive(Clone, Copy, PartialEq, Eq, PartialOrd, Ord)]
enum Of {
    Process(u8),
    Board(u8),
    Channel(u8),
    Back,
    Other,
}

pub fn summary(run: &Explaining, text: &mut String) {
    answers(run, text);
    words(run, text);
    crashes(run, text);
}

fn of(run: &Explaining, i: usize) -> Of {
    let record = run.played.records[i];
    let there = run.played.ran.answers[i].code != Code::BadIndex;
    match record.kind() {
        Some(Move::Step | Move::Sync | Move::Resync) if there => Of::Process(record.a),
        Some(Move::Carry | Move::Crash | Move::Return) if there => Of::Board(record.a),
        Some(Move::Feed) if there => Of::Channel(record.a),
        Some(Move::Back) => Of::Back,
        _ => Of::Other,
    }
}

/// How many answers of each code the records of each process, board and channel have.
fn answers(run: &Explaining, text: &mut String) {
    let mut counts: BTreeMap<Of, BTreeMap<u8, usize>> = BTreeMap::new();
    for (i, answer) in run.played.ran.answers.iter().enumerate() {
        *counts.entry(of(run, i)).or_default().entry(answer.code.number()).or_default() += 1;
    }
    for (of, codes) in counts {
        let name = match of {
            Of::Process(p) => run.spoken.process(p),
            Of::Board(b) => format!("board {b}"),
            Of::Channel(k) => format!("feeds of {}", run.spoken.channel(k)),
            Of::Back => "backs".to_string(),
            Of::Other => "of nothing in this table".to_string(),
        };
        let records = many(codes.values().sum(), "record", "records");
        let done: Vec<String> =
            codes.iter().filter(|(code, _)| **code < 32).map(|(code, n)| format!("{n} {}", short(*code))).collect();
        let refused = codes.iter().filter(|(code, _)| **code >= 32);
        let refused: Vec<String> = refused.map(|(code, n)| format!("{n} refused {code}, {}", short(*code))).collect();
        writeln!(text, "{name}, {records}: {}", [done, refused].concat().join("; ")).unwrap();
    }
}

/// The beginning of a code's words.
fn short(code: u8) -> &'static str {
    let words = Code::try_from(code).expect("the code of an answer").words();
    words.split([':', ';', '(', ',']).next().unwrap_or(words).trim_end()
}

/// How many words each channel had on the bus, and the last of them.
fn words(run: &Explaining, text: &mut String) {
    for (k, (sender, reader)) in run.played.table.channels.iter().enumerate() {
        let words: Vec<u32> =
            run.played.ran.bus.iter().filter(|word| usize::from(word.channel) == k).map(|word| word.word).collect();
        let end = |end: &End| match end {
            End::Outside => "the outside".to_string(),
            End::Process(p) => run.spoken.process(*p),
        };
        let range = match (words.first(), words.last()) {
            (Some(first), Some(last)) if words.len() > 1 => format!(", from word {first} to word {last}"),
            (Some(only), _) => format!(", word {only}"),
            _ => String::new(),
        };
        let name = run.spoken.channel(k as u32);
        writeln!(
            text,
            "{name}, from {} to {}: {} on the bus{range}",
            end(sender),
            end(reader),
            many(words.len(), "word", "words")
        )
        .unwrap();
    }
}

/// The first and the last crash of those that stand.
fn crashes(run: &Explaining, text: &mut String) {
    let played = run.played;
    let is = |i: &usize| played.ran.answers[*i].reason == Reason::BoardCrashed && played.ran.fates[*i] == Fate::Stands;
    let crashes: Vec<usize> = (0..played.records.len()).filter(is).collect();
    let name = |i: usize| format!("record {}, board {}", run.given.sources[i].name(), played.records[i].a);
    let said = match crashes[..] {
        [] => String::new(),
        [only] => format!(": {}", name(only)),
        [first, .., last] => format!(": the first is {}, the last {}", name(first), name(last)),
    };
    writeln!(text, "{}{said}", many(crashes.len(), "crash", "crashes")).unwrap();
}
