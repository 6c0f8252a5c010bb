//! The picture alone: heads, rows and legend in one SVG file that needs nothing else.
use super::draw::{colour, Drawing, BAR};
use super::layout::{rows, Row};
use super::pen::{escaped, Pen};
use super::say;
use super::story::Story;
use crate::words;
use std::ops::Range;

pub const CSS: &str = include_str!("picture.css");
/// How high the heads of the columns are, a title and a line of the legend.
pub const HEAD: i32 = 40;
const TITLE: i32 = 26;
const ENTRY: i32 = 20;
/// How wide a sign of the legend is with its words.
const SIGN: i32 = 215;
/// How many records are shown around a crash.
const AROUND: usize = 40;

/// What SVG parts refer to, by its name.
pub const DEFS: &str =
    "<defs><pattern id=\"hatch\" width=\"7\" height=\"7\" patternUnits=\"userSpaceOnUse\" patternTransform=\"rotate(45)\">\
    <line class=\"hatch\" x1=\"0\" y1=\"0\" x2=\"0\" y2=\"7\"/></pattern></defs>";

/// The records that a picture opens at: some 40 around the first crash, or from the start on.
pub fn opening(story: &Story) -> Range<usize> {
    let (count, crash) = (story.moments.len(), story.first_crash().unwrap_or(0));
    let from = crash.saturating_sub(AROUND / 2).min(count.saturating_sub(AROUND));
    from..count.min(from + AROUND)
}

/// The rows of some records, in words.
pub fn worded_rows(story: &Story, records: Range<usize>) -> Vec<Row> {
    rows(story, records, |from, to| say::row(story, from, to))
}

/// What is run, in a line.
pub fn title(story: &Story) -> String {
    let heading = words::heading(story.played.records.len(), &story.played.table);
    let cabinet = story.names.as_ref().and_then(|names| names.cabinet.as_ref());
    cabinet.map_or(heading.clone(), |name| format!("{name}: {heading}"))
}

/// Some records as a file of its own.
pub fn svg(drawing: &Drawing, records: Range<usize>) -> String {
    let story = drawing.story;
    let shown = worded_rows(story, records.clone());
    let bottom = shown.last().map_or(0, |row| row.y + row.height);
    let called = say::called(story);
    let top = if called.is_some() { TITLE + 16 } else { TITLE };
    let body = top + HEAD;
    let legend = body + bottom + 12;
    let width = drawing.lanes.width.max(560);
    let columns = (width / SIGN).max(1) as usize;
    let height = legend + 14 + ENTRY * LEGEND.len().div_ceil(columns) as i32;
    let name = match records.len() == story.moments.len() {
        true => title(story),
        false => format!("{}; records {} to {}", title(story), records.start + 1, records.end),
    };
    let mut pen = Pen::default();
    pen.put(format_args!(
        "<svg xmlns=\"http://www.w3.org/2000/svg\" viewBox=\"0 0 {width} {height}\" width=\"{width}\" height=\"{height}\" role=\"img\">\n\
         <title>{}</title>\n<style>\n{CSS}</style>\n{DEFS}\n",
        escaped(&name)
    ));
    pen.rect("paper", 0, 0, width, height);
    pen.words("title", 8, 17, &name);
    if let Some(called) = called {
        pen.words("called", 8, 33, called);
    }
    pen.group(format_args!("transform=\"translate(0 {top})\""), |pen| heads(drawing, pen));
    pen.group(format_args!("transform=\"translate(0 {body})\""), |pen| drawing.rows(&shown, pen));
    pen.group(format_args!("transform=\"translate(8 {legend})\""), |pen| self::legend(columns, pen));
    pen.put("</svg>\n");
    pen.text
}

/// The heads of the columns.
pub fn heads(drawing: &Drawing, pen: &mut Pen) {
    let lanes = &drawing.lanes;
    pen.words("lane", lanes.outside, 34, "outside");
    for (board, column) in lanes.boards.iter().enumerate() {
        pen.words("head", column.x + column.width / 2, 15, format_args!("board {board}"));
        pen.words("lane", column.queue, 34, "queue");
    }
    for (_, process, x) in lanes.all() {
        pen.rect(&format!("bar {}", colour(process)), x - BAR / 2, 22, BAR, 16);
        pen.words(&format!("place {}", colour(process)), x, 34, format_args!("p{process}"));
    }
}

/// A sign of the legend: how it is drawn at a point, and what it stands for.
type Sign = (fn(&mut Pen), &'static str);

const LEGEND: &[Sign] = &[
    (|pen| pen.rect("bar p0", 2, 0, BAR, 16), "a process runs; its place"),
    (|pen| pen.path("holds p0", "M2 0V16M26 0V16"), "it holds back sends"),
    (
        |pen| {
            pen.rect("saved p0", 2, 0, 10, 16);
            pen.path("backup p0", "M2 0V16M26 0V16");
        },
        "its backup; saved words",
    ),
    (|pen| pen.path("making p0", "M2 0V16M26 0V16"), "a backup is being made"),
    (|pen| pen.rect("queue", 4, 0, 20, 16), "a queue; its entries"),
    (|pen| pen.path("word", "M8 4l7 4l-7 4Z"), "a word is taken"),
    (|pen| pen.square("word", 14, 8), "a word is sent: queued"),
    (|pen| pen.square("hollow", 14, 8), "a send is held back"),
    (|pen| pen.dot("word", 14, 8, 4), "a word on the bus:"),
    (|pen| pen.arrow("reader", (0, 8), (28, 8)), "to its reader"),
    (|pen| pen.arrow("saves", (0, 8), (28, 8)), "to the reader's backup"),
    (|pen| pen.arrow("counts", (0, 8), (28, 8)), "to the sender's backup"),
    (|pen| pen.diamond("sync", 14, 8), "a sync"),
    (|pen| pen.diamond("resync", 14, 8), "a resync"),
    (|pen| pen.arrow("lands", (0, 8), (28, 8)), "lands in the backup"),
    (
        |pen| {
            pen.line("cross", (6, 2), (22, 14));
            pen.line("cross", (6, 14), (22, 2));
        },
        "a board crashes; what is lost",
    ),
    (|pen| pen.path("moves p0", "M2 8L26 8"), "a process goes on elsewhere"),
    (|pen| pen.rect("dead", 2, 0, BAR, 16), "a dead board"),
    (|pen| pen.line("returns", (2, 8), (26, 8)), "a board returns"),
    (|pen| pen.path("tick", "M11 5l6 6m0 -6l-6 6"), "refused: nothing changes"),
    (|pen| pen.path("back", "M10 12c12 0 12 -9 0 -9l4 -3m-4 3l4 3"), "a record is taken back"),
    (|pen| pen.group("class=\"gone\"", |pen| pen.square("word", 14, 8)), "grey: taken back later"),
];

/// Every sign and what it stands for, in so many columns.
pub fn legend(columns: usize, pen: &mut Pen) {
    for (i, (draw, words)) in LEGEND.iter().enumerate() {
        let (x, y) = ((i % columns) as i32 * SIGN, (i / columns) as i32 * ENTRY);
        pen.group(format_args!("transform=\"translate({x} {y})\""), |pen| {
            draw(pen);
            pen.words("said", 34, 12, words);
        });
    }
}

/// The legend as a picture of its own.
pub fn legend_svg(columns: usize) -> String {
    let (width, height) = (columns as i32 * SIGN, ENTRY * LEGEND.len().div_ceil(columns) as i32);
    let mut pen = Pen::default();
    pen.put(format_args!("<svg viewBox=\"0 0 {width} {height}\" width=\"{width}\" height=\"{height}\">\n"));
    legend(columns, &mut pen);
    pen.put("</svg>\n");
    pen.text
}
