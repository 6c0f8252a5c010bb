//! The drawing of some rows: what stays (columns, bars, gauges, queues) as long shapes from one change to the next, and what happens as a
//! mark in its row. A part of a run is drawn from its own rows alone.
use super::events;
use super::layout::{Lanes, Row, LINE, NUMBER, ROW};
use super::pen::Pen;
use super::scene::{Scene, Seat};
use super::story::Story;
use kunzeastylus::Fate;

/// How many colours processes have; those beyond begin again.
const COLOURS: u8 = 6;
/// How wide a bar is, and a full gauge.
pub const BAR: i32 = 24;

/// The class of a process's colour.
pub fn colour(process: u8) -> String {
    format!("p{}", process % COLOURS)
}

/// The most saved words and queued entries of a run: what a full gauge stands for, at least 8.
#[derive(Clone, Copy, Debug)]
pub struct Scale {
    pub saved: usize,
    pub queued: usize,
}

impl Scale {
    pub fn of(story: &Story) -> Scale {
        let saved = |seat: &Seat| seat.backup.iter().chain(&seat.making).map(|backup| backup.saved.len()).max().unwrap_or(0);
        let scenes = || story.moments.iter().map(|moment| &moment.scene);
        Scale {
            saved: scenes().flat_map(|scene| scene.seats.iter().map(saved)).max().unwrap_or(0).max(8),
            queued: scenes().flat_map(|scene| scene.boards.iter().map(|board| board.queue.len())).max().unwrap_or(0).max(8),
        }
    }
}

/// A story with the lanes and the scale that all its parts share.
pub struct Drawing<'s> {
    pub story: &'s Story,
    pub lanes: Lanes,
    pub scale: Scale,
}

/// A shape from one change to the next: what it shows, and from where to where.
struct Stretch<K> {
    key: K,
    from: i32,
    to: i32,
}

impl<'s> Drawing<'s> {
    pub fn of(story: &'s Story) -> Drawing<'s> {
        Drawing { story, lanes: Lanes::of(&story.played.table), scale: Scale::of(story) }
    }

    /// These rows, all of them.
    pub fn rows(&self, rows: &[Row], pen: &mut Pen) {
        let bottom = rows.last().map_or(0, |row| row.y + row.height);
        self.columns(rows, bottom, pen);
        self.queues(rows, bottom, pen);
        self.backups(rows, bottom, pen);
        self.bars(rows, bottom, pen);
        for row in rows {
            self.row(row, pen);
        }
    }

    /// What something was at each moment of the rows, equal neighbours in one.
    fn stretches<K: PartialEq>(&self, rows: &[Row], bottom: i32, of: impl Fn(&Scene) -> K) -> Vec<Stretch<K>> {
        let Some(first) = rows.first() else { return Vec::new() };
        let mut stretches = vec![Stretch { key: of(self.story.before(first.from)), from: 0, to: bottom }];
        for row in rows {
            let key = of(&self.story.moments[row.to].scene);
            let last = stretches.last_mut().expect("a stretch");
            if last.key != key {
                last.to = row.change();
                stretches.push(Stretch { key, from: row.change(), to: bottom });
            }
        }
        stretches
    }

    /// The boards' columns, live or dead.
    fn columns(&self, rows: &[Row], bottom: i32, pen: &mut Pen) {
        for (b, column) in self.lanes.boards.iter().enumerate() {
            for Stretch { key: dead, from, to } in self.stretches(rows, bottom, |scene| scene.boards[b].dead) {
                pen.rect(if dead { "dead" } else { "board" }, column.x, from, column.width, to - from);
            }
        }
        pen.line("wire", (self.lanes.outside, 0), (self.lanes.outside, bottom));
    }

    /// How much each queue has.
    fn queues(&self, rows: &[Row], bottom: i32, pen: &mut Pen) {
        for (b, column) in self.lanes.boards.iter().enumerate() {
            for Stretch { key: n, from, to } in self.stretches(rows, bottom, |scene| scene.boards[b].queue.len()) {
                if n > 0 {
                    let width = (30 * n).div_ceil(self.scale.queued) as i32;
                    pen.rect("queue", column.queue - width / 2, from, width, to - from);
                    self.count(n, column.queue + 17, from, to, pen);
                }
            }
        }
    }

    /// A number beside a shape that is high enough for it.
    fn count(&self, n: usize, x: i32, from: i32, to: i32, pen: &mut Pen) {
        if to - from >= ROW {
            pen.words("count", x, from + 13, n);
        }
    }

    /// The backups, each with its gauge of saved words.
    fn backups(&self, rows: &[Row], bottom: i32, pen: &mut Pen) {
        for (board, p, x) in self.lanes.all() {
            let backup = |scene: &Scene| {
                let seat = &scene.seats[usize::from(p)];
                let whole = seat.backup.as_ref().map(|backup| (true, backup));
                let found = whole.or(seat.making.as_ref().map(|making| (false, making)));
                found.filter(|(_, backup)| backup.board == board).map(|(whole, backup)| (whole, backup.saved.len()))
            };
            for Stretch { key, from, to } in self.stretches(rows, bottom, |scene| backup(scene).map(|(whole, _)| whole)) {
                if let Some(whole) = key {
                    self.hollow(if whole { "backup" } else { "making" }, p, x, (from, to), pen);
                }
            }
            for Stretch { key, from, to } in self.stretches(rows, bottom, backup) {
                if let Some((_, saved @ 1..)) = key {
                    let width = (BAR as usize * saved).div_ceil(self.scale.saved) as i32;
                    pen.rect(&format!("saved {}", colour(p)), x - BAR / 2, from, width, to - from);
                    self.count(saved, x + 4, from, to, pen);
                }
            }
        }
    }

    /// A bar that is only its two sides, so that it goes on from part to part.
    fn hollow(&self, class: &str, p: u8, x: i32, (from, to): (i32, i32), pen: &mut Pen) {
        pen.rect("slip", x - BAR / 2, from, BAR, to - from);
        let class = format!("{class} {}", colour(p));
        pen.path(&class, format_args!("M{0} {from}V{to}M{1} {from}V{to}", x - BAR / 2, x + BAR / 2));
    }

    /// The processes, where they run; hollow while they hold back.
    fn bars(&self, rows: &[Row], bottom: i32, pen: &mut Pen) {
        for (board, p, x) in self.lanes.all() {
            let runs = |scene: &Scene| {
                let end = &scene.seats[usize::from(p)].end;
                (end.board == board).then_some(end.hold_back > 0)
            };
            for Stretch { key, from, to } in self.stretches(rows, bottom, runs) {
                match key {
                    Some(true) => self.hollow("holds", p, x, (from, to), pen),
                    Some(false) => pen.rect(&format!("bar {}", colour(p)), x - BAR / 2, from, BAR, to - from),
                    None => (),
                }
            }
        }
    }

    /// One row: its number, what happens, and its words; dim where it is taken back later.
    fn row(&self, row: &Row, pen: &mut Pen) {
        let gone = matches!(self.story.played.ran.fates[row.from], Fate::TakenBackBy(_));
        let attributes =
            format!("class=\"{}\" id=\"r{}\" data-r=\"{}\"", if gone { "row gone" } else { "row" }, row.from + 1, row.from + 1);
        pen.group(attributes, |pen| {
            pen.rect("hit", 0, row.y, self.lanes.width, row.height);
            pen.words("number", NUMBER, row.y + 13, number(row, gone));
            self.places(row, pen);
            events::draw(self, row, pen);
            for (line, y) in row.words.iter().zip((row.y + 13..).step_by(LINE as usize)) {
                pen.words("words", self.lanes.words, y, line);
            }
        });
    }

    /// The place of each process that has moved.
    fn places(&self, row: &Row, pen: &mut Pen) {
        let (before, after) = (self.story.before(row.from), &self.story.moments[row.to].scene);
        for (p, (was, is)) in (0..).zip(before.seats.iter().zip(&after.seats)) {
            if (was.end.board, was.end.place) != (is.end.board, is.end.place) {
                let below = if row.crash { row.height - 6 } else { 13 };
                let holds = if is.end.hold_back > 0 { "place rolls" } else { "place" };
                pen.words(&format!("{holds} {}", colour(p)), self.lanes.lane(is.end.board, p), row.y + below, is.end.place);
            }
        }
    }
}

/// A row's number, or its numbers; a mark where it is taken back later.
fn number(row: &Row, gone: bool) -> String {
    match row.from == row.to {
        true if gone => format!("{}~", row.from + 1),
        true => format!("{}", row.from + 1),
        false => format!("{}–{}", row.from + 1, row.to + 1),
    }
}
