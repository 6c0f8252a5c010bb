//! Where things stand in the picture: from left to right the record's number, the outside, a column for each board with a lane for each
//! process that has a half there and one for the queue, and the record in words; from top to bottom a row for each record, equal refusals
//! in one.
use super::story::{Event, Story};
use kunzeastylus::{Fate, Table};
use std::ops::Range;

pub const NUMBER: i32 = 42;
const OUTSIDE: i32 = 118;
const FIRST_COLUMN: i32 = 142;
const LANE: i32 = 36;
const QUEUE: i32 = 44;
const PAD: i32 = 6;
const GAP: i32 = 10;
/// How wide the words are, and how many characters fit.
const WORDS: i32 = 372;
const CHARACTERS: usize = 62;
/// How high a row is, a line of words, and the cross of a crash.
pub const ROW: i32 = 18;
pub const LINE: i32 = 13;
pub const CROSS: i32 = 34;

/// A board's column.
#[derive(Clone, Debug)]
pub struct Column {
    pub x: i32,
    pub width: i32,
    /// The middle of the queue's lane.
    pub queue: i32,
    /// Each process that has a half here, and the middle of its lane.
    lanes: Vec<(u8, i32)>,
}

#[derive(Clone, Debug)]
pub struct Lanes {
    pub outside: i32,
    pub boards: Vec<Column>,
    pub words: i32,
    pub width: i32,
}

impl Lanes {
    pub fn of(table: &Table) -> Lanes {
        let mut x = FIRST_COLUMN;
        let mut boards = Vec::new();
        for board in 0..table.boards {
            let here = (0..).zip(&table.processes).filter(|(_, process)| process.primary == board || process.backup == board);
            let lanes: Vec<(u8, i32)> = here.zip(0..).map(|((p, _), i)| (p, x + PAD + LANE * i + LANE / 2)).collect();
            let queue = x + PAD + LANE * lanes.len() as i32 + QUEUE / 2;
            let width = 2 * PAD + LANE * lanes.len() as i32 + QUEUE;
            boards.push(Column { x, width, queue, lanes });
            x += width + GAP;
        }
        Lanes { outside: OUTSIDE, boards, words: x + 4, width: x + 4 + WORDS }
    }

    /// The middle of a process's lane in the column of one of its two boards.
    pub fn lane(&self, board: u8, process: u8) -> i32 {
        let lanes = &self.boards[usize::from(board)].lanes;
        lanes.iter().find(|(p, _)| *p == process).map(|(_, x)| *x).expect("a process has a lane at both its boards")
    }

    /// Every lane: board, process, and its middle.
    pub fn all(&self) -> impl Iterator<Item = (u8, u8, i32)> + '_ {
        (0..).zip(&self.boards).flat_map(|(board, column)| column.lanes.iter().map(move |&(process, x)| (board, process, x)))
    }
}

/// A row: records `from` to `to`, from 0, where it is and how high, and its words.
#[derive(Clone, Debug)]
pub struct Row {
    pub from: usize,
    pub to: usize,
    pub y: i32,
    pub height: i32,
    /// Whether a board crashes here.
    pub crash: bool,
    pub words: Vec<String>,
}

impl Row {
    /// Where what happens is drawn.
    pub fn middle(&self) -> i32 {
        self.y + if self.crash { CROSS / 2 } else { ROW / 2 }
    }

    /// Above it the cabinet is the one before, and below it the one after.
    pub fn change(&self) -> i32 {
        self.y + if self.crash { CROSS / 2 } else { 0 }
    }
}

/// The rows of some records, from y 0 on.
pub fn rows(story: &Story, records: Range<usize>, words: impl Fn(usize, usize) -> String) -> Vec<Row> {
    let mut rows = Vec::new();
    let (mut from, mut y) = (records.start, 0);
    while from < records.end {
        let mut to = from;
        while to + 1 < records.end && folds(story, to) {
            to += 1;
        }
        let words = wrapped(&words(from, to), CHARACTERS);
        let (crash, height) = match &story.moments[from].event {
            Event::Crashed { lost, .. } => {
                (true, (CROSS + LINE * lost.len().min(LISTED + 1) as i32).max(ROW + LINE * words.len() as i32) + 4)
            }
            _ => (false, ROW + LINE * (words.len() as i32 - 1)),
        };
        rows.push(Row { from, to, y, height, crash, words });
        y += height;
        from = to + 1;
    }
    rows
}

/// How many lost entries are listed at a cross; more are counted.
pub const LISTED: usize = 8;

/// Whether a record and the next are the same refusal, and both stand.
fn folds(story: &Story, record: usize) -> bool {
    let played = &story.played;
    let same = |i: usize| (played.records[i], played.ran.answers[i], played.ran.fates[i]);
    played.ran.answers[record].code.refused() && played.ran.fates[record] == Fate::Stands && same(record) == same(record + 1)
}

/// Lines of at most so many characters, parted at spaces.
fn wrapped(text: &str, most: usize) -> Vec<String> {
    let mut lines = vec![String::new()];
    for word in text.split(' ') {
        let line = lines.last_mut().expect("a line");
        if line.is_empty() {
            line.push_str(word);
        } else if line.chars().count() + 1 + word.chars().count() <= most {
            line.push(' ');
            line.push_str(word);
        } else {
            lines.push(word.to_string());
        }
    }
    lines
}
