//! What the page's script shows when a record or a word is pointed at, as JSON: all of it in words already. What stays the same from
//! record to record stands once, with the number of the record from which on it holds.
use super::layout::Row;
use super::say;
use super::scene::{Scene, WordId};
use super::story::Story;
use crate::json;
use kunzeastylus::Fate;

/// Text as JSON has it, safe within a page.
fn quoted(text: &str) -> String {
    json::string(text).replace('<', "\\u003c")
}

fn list(items: impl Iterator<Item = String>) -> String {
    format!("[{}]", items.collect::<Vec<_>>().join(","))
}

/// Something in words after each record, where it changes: pairs of a record's number, 0 for the start, and the words.
fn changes(story: &Story, of: impl Fn(&Scene) -> String) -> String {
    let scenes = std::iter::once(&story.start).chain(story.moments.iter().map(|moment| &moment.scene));
    let mut last = None;
    let pairs = scenes.map(of).enumerate().filter_map(|(k, words)| {
        let same = last.as_ref() == Some(&words);
        last = Some(words.clone());
        (!same).then(|| format!("[{k},{}]", quoted(&words)))
    });
    list(pairs)
}

/// Words by channel and word, as short as can be.
fn short(story: &Story, words: &[WordId]) -> String {
    say::list(words.iter().map(|&id| format!("{}:{}", story.lives[id].channel, story.lives[id].word)), "nothing")
}

/// All of it, with the rows' heights and the record that the page opens at, from 1.
pub fn data(story: &Story, rows: &[Row], open: usize) -> String {
    let seats = (0..story.start.seats.len()).map(|p| {
        let line = changes(story, |scene| say::process(story, p as u8, &scene.seats[p]));
        let unread = changes(story, |scene| format!("unread: {}", short(story, &scene.seats[p].unread)));
        let backup = changes(story, |scene| say::backup(&scene.seats[p], |words| short(story, words)));
        format!("[{line},{unread},{backup}]")
    });
    let boards = (0..story.start.boards.len()).map(|b| changes(story, |scene| say::board(story, b, &scene.boards[b])));
    let records = (0..story.moments.len()).map(|i| list(say::record(story, i).iter().map(|text| quoted(text))));
    let rows = rows.iter().map(|row| format!("[{},{},{},{}]", row.from + 1, row.to + 1, row.y, row.height));
    let lives = (0..story.lives.len()).map(|id| life(story, id));
    format!(
        "{{\"open\":{open},\n\"rows\":{},\n\"records\":{},\n\"seats\":{},\n\"boards\":{},\n\"lives\":{}}}",
        list(rows),
        list(records),
        list(seats),
        list(boards),
        list(lives)
    )
}

/// A word, and what became of it at which records.
fn life(story: &Story, id: WordId) -> String {
    let stages = story.lives[id].stages.iter().map(|(record, stage)| {
        let gone = matches!(story.played.ran.fates[*record], Fate::TakenBackBy(_));
        let said = format!("{}{}", say::stage(*stage), if gone { ", and taken back" } else { "" });
        format!("[{},{}]", record + 1, quoted(&said))
    });
    format!("[{},{}]", quoted(&say::word(story, id)), list(stages))
}
