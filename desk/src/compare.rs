//! Two runs side by side: their bus orders, word by word, and their ends.
use crate::case::Case;
use crate::form::names::Names;
use crate::proved::Ran;
use crate::words::many;
use kunzeastylus::{BusWord, End, ProcessEnd};
use std::fmt::Write;

/// How many equal words are shown before the first that differs, and how many from it on.
const BEFORE: usize = 5;
const AFTER: usize = 10;

/// What is compared.
pub struct Side<'r> {
    pub case: &'r Case,
    pub ran: &'r Ran,
}

/// Both in columns, and whether they are equal. Boards are shown and not compared: a crash moves programs, and is to change nothing else.
pub fn compare(a: &Side, b: &Side, width: usize) -> (String, bool) {
    let mut text = String::new();
    let bus = bus(a, b, width, &mut text);
    let ends = ends(a, b, width, &mut text);
    (text, bus && ends)
}

/// A line in two columns, with a sign between them.
fn columns(text: &mut String, left: &str, same: bool, right: &str, width: usize) {
    let column = (width.saturating_sub(3) / 2).clamp(8, 60);
    let cut = |side: &str| -> String {
        match side.chars().count() > column {
            true => side.chars().take(column - 2).chain("..".chars()).collect(),
            false => side.to_string(),
        }
    };
    let sign = if same { ' ' } else { '|' };
    let line = format!("{:<column$} {sign} {}", cut(left), cut(right));
    writeln!(text, "{}", line.trim_end()).unwrap();
}

fn bus(a: &Side, b: &Side, width: usize, text: &mut String) -> bool {
    let (left, right) = (&a.ran.bus, &b.ran.bus);
    let first = left.iter().zip(right).take_while(|(left, right)| left == right).count();
    let equal = left.len() == right.len() && first == left.len();
    let words = many(left.len(), "word", "words");
    match equal {
        true => writeln!(text, "bus order: equal, {words}").unwrap(),
        false => writeln!(text, "bus order: word {} is the first difference, of {words} and {}", first + 1, right.len()).unwrap(),
    }
    let from = if equal { left.len().saturating_sub(BEFORE) } else { first.saturating_sub(BEFORE) };
    let to = left.len().max(right.len()).min(first + AFTER);
    if from > 0 {
        writeln!(text, "  {} before", many(from, "equal word", "equal words")).unwrap();
    }
    for i in from..to {
        let shown = |words: &[BusWord], names: &Names| {
            words.get(i).map_or("-".to_string(), |word| format!("{:>5} {}", i + 1, on_the_bus(*word, names)))
        };
        columns(text, &shown(left, &a.case.names), left.get(i) == right.get(i), &shown(right, &b.case.names), width);
    }
    let left_out = left.len().max(right.len()) - to;
    if left_out > 0 {
        writeln!(text, "  {} behind", many(left_out, "word", "words")).unwrap();
    }
    equal
}

fn on_the_bus(word: BusWord, names: &Names) -> String {
    let BusWord { channel, word, sender, place } = word;
    let channel = names.channel_name(channel);
    match sender {
        End::Outside => format!("{channel} {word} fed"),
        End::Process(p) => format!("{channel} {word} from {} {place}", names.program_name(p)),
    }
}

fn ends(a: &Side, b: &Side, width: usize, text: &mut String) -> bool {
    let (left, right) = (&a.ran.ends, &b.ran.ends);
    let without_board = |end: &ProcessEnd| ProcessEnd { board: 0, ..*end };
    let same = |p: usize| left.get(p).map(without_board) == right.get(p).map(without_board);
    let differ: Vec<usize> = (0..left.len().max(right.len())).filter(|p| !same(*p)).collect();
    let quiet = a.ran.quiet == b.ran.quiet;
    match (differ.first(), quiet) {
        (None, true) => writeln!(text, "ends: equal").unwrap(),
        (None, false) => writeln!(text, "ends: one is quiet and one is not").unwrap(),
        (Some(p), _) => writeln!(text, "ends: program {} is the first difference", a.case.names.program_name(*p as u32)).unwrap(),
    }
    for p in 0..left.len().max(right.len()) {
        let shown = |ends: &[ProcessEnd], names: &Names| ends.get(p).map_or("-".to_string(), |end| stands(p, end, names));
        columns(text, &shown(left, &a.case.names), same(p), &shown(right, &b.case.names), width);
        for inner in [counts, registers] {
            let shown = |ends: &[ProcessEnd]| ends.get(p).map_or(String::new(), inner);
            columns(text, &shown(left), same(p), &shown(right), width);
        }
    }
    let said = |quiet: bool| if quiet { "quiet" } else { "not quiet" };
    columns(text, said(a.ran.quiet), quiet, said(b.ran.quiet), width);
    differ.is_empty() && quiet
}

fn stands(p: usize, end: &ProcessEnd, names: &Names) -> String {
    format!("{} on {} at {}", names.program_name(p as u32), end.board, names.place_name(p, end.place))
}

fn counts(end: &ProcessEnd) -> String {
    format!("    unread {} held-back {}", end.unread, end.hold_back)
}

fn registers(end: &ProcessEnd) -> String {
    let [r0, r1, r2, r3] = end.registers;
    format!("    registers {r0} {r1} {r2} {r3}")
}
