//! What happens in a row, as marks: words as dots and squares with their arrows, syncs as diamonds, a crash as a cross with what it lost,
//! a refusal as a tick.
use super::draw::{colour, Drawing, BAR};
use super::layout::{Row, CROSS, LINE, LISTED, NUMBER, ROW};
use super::pen::Pen;
use super::say;
use super::scene::{Entry, WordId};
use super::story::Event;
use kunzeastylus::{End, Move};

/// How far above and below the middle the arrows of one word end.
const FAN: i32 = 5;

pub fn draw(drawing: &Drawing, row: &Row, pen: &mut Pen) {
    let mark = Mark { drawing, row, y: row.middle() };
    match &drawing.story.moments[row.from].event {
        Event::Fed(word) => mark.of_word(*word, pen, |pen| mark.fed(*word, pen)),
        Event::Took { process, word } => mark.of_word(*word, pen, |pen| mark.took(*process, pen)),
        Event::Queued { process, word } => mark.of_word(*word, pen, |pen| {
            let x = mark.to_the_queue(*process, pen);
            pen.square("word", x, mark.y);
        }),
        Event::HeldBack { process, word } => mark.of_word(*word, pen, |pen| mark.held_back(*process, pen)),
        Event::Calculated { .. } => (),
        Event::SyncIssued { process } => {
            let x = mark.to_the_queue(*process, pen);
            pen.diamond("sync", x, mark.y);
        }
        Event::ResyncIssued { process } => {
            let x = mark.to_the_queue(*process, pen);
            pen.diamond("resync", x, mark.y);
        }
        Event::Carried { board, word } => mark.of_word(*word, pen, |pen| mark.carried(*board, *word, pen)),
        Event::SyncCarried { board, process, dropped } => mark.landed(*board, *process, "sync", *dropped, pen),
        Event::ResyncCarried { board, process } => mark.landed(*board, *process, "resync", 0, pen),
        Event::SyncUnbacked { board, .. } => mark.unbacked(*board, pen),
        Event::Crashed { board, lost, moved } => mark.crashed(*board, lost, moved, pen),
        Event::Returned { board } => mark.returned(*board, pen),
        Event::TookBack(_) => pen.path("back", format_args!("M{} {}c12 0 12 -9 0 -9l4 -3m-4 3l4 3", NUMBER + 6, mark.y + 4)),
        Event::Refused => mark.refused(pen),
    }
}

struct Mark<'d> {
    drawing: &'d Drawing<'d>,
    row: &'d Row,
    /// The middle of what happens.
    y: i32,
}

impl Mark<'_> {
    fn of_word(&self, word: WordId, pen: &mut Pen, draw: impl FnOnce(&mut Pen)) {
        pen.group(format_args!("class=\"life\" data-w=\"{word}\""), draw);
    }

    /// The lane in which a process runs before the row.
    fn lane_of(&self, process: u8) -> i32 {
        let seat = &self.drawing.story.before(self.row.from).seats[usize::from(process)];
        self.drawing.lanes.lane(seat.end.board, process)
    }

    /// The queue of the board on which a process runs.
    fn queue_of(&self, process: u8) -> i32 {
        let seat = &self.drawing.story.before(self.row.from).seats[usize::from(process)];
        self.drawing.lanes.boards[usize::from(seat.end.board)].queue
    }

    /// The lane of a process's backup after the row, if it has one.
    fn backup_of(&self, process: u8) -> Option<i32> {
        let seat = &self.drawing.story.moments[self.row.from].scene.seats[usize::from(process)];
        let backup = seat.backup.as_ref().or(seat.making.as_ref())?;
        Some(self.drawing.lanes.lane(backup.board, process))
    }

    /// A line from a process to its queue, and where that is.
    fn to_the_queue(&self, process: u8, pen: &mut Pen) -> i32 {
        let x = self.queue_of(process);
        pen.line("sent", (self.lane_of(process) + BAR / 2, self.y), (x - 4, self.y));
        x
    }

    /// A send that goes nowhere.
    fn held_back(&self, process: u8, pen: &mut Pen) {
        let x = self.lane_of(process) + BAR / 2 + 7;
        pen.line("sent", (x - 7, self.y), (x - 4, self.y));
        pen.square("hollow", x, self.y);
    }

    /// A sync that finds no backup.
    fn unbacked(&self, board: u8, pen: &mut Pen) {
        let x = self.drawing.lanes.boards[usize::from(board)].queue;
        pen.diamond("sync", x, self.y);
        pen.path("tick", format_args!("M{} {}l12 12m0 -12l-12 12", x - 6, self.y - 6));
    }

    /// The column begins anew.
    fn returned(&self, board: u8, pen: &mut Pen) {
        let (column, y) = (&self.drawing.lanes.boards[usize::from(board)], self.row.y);
        pen.line("returns", (column.x, y + 1), (column.x + column.width, y + 1));
        pen.words("returned", column.x + column.width / 2, y + 13, "returns");
    }

    /// A triangle that points into the bar.
    fn took(&self, process: u8, pen: &mut Pen) {
        pen.path("word", format_args!("M{} {}l7 4l-7 4Z", self.lane_of(process) - BAR / 2 - 6, self.y - 4));
    }

    /// Beside a lane, on the side from which an arrow comes.
    fn beside(lane: i32, from: i32) -> i32 {
        lane + if from < lane { -BAR / 2 } else { BAR / 2 }
    }

    /// From the outside to the reader and to its backup.
    fn fed(&self, word: WordId, pen: &mut Pen) {
        let x = self.drawing.lanes.outside;
        pen.dot("word", x, self.y, 4);
        pen.words("fed", x - 7, self.y + 4, self.drawing.story.lives[word].word);
        self.to_the_reader(word, x, pen);
    }

    fn to_the_reader(&self, word: WordId, x: i32, pen: &mut Pen) {
        let (story, lanes) = (self.drawing.story, &self.drawing.lanes);
        match story.played.table.channels[usize::from(story.lives[word].channel)].1 {
            End::Outside => {
                pen.arrow("reader", (x, self.y), (lanes.outside + 3, self.y - FAN));
                pen.words("fed", lanes.outside - 4, self.y + 1, story.lives[word].word);
            }
            End::Process(reader) => {
                let to = self.lane_of(reader);
                pen.arrow("reader", (x, self.y), (Self::beside(to, x), self.y - FAN));
                if let Some(to) = self.backup_of(reader) {
                    pen.arrow("saves", (x, self.y), (Self::beside(to, x), self.y));
                }
            }
        }
    }

    /// From one point to the reader, to its backup and to the sender's backup.
    fn carried(&self, board: u8, word: WordId, pen: &mut Pen) {
        let story = self.drawing.story;
        let x = self.drawing.lanes.boards[usize::from(board)].queue;
        self.to_the_reader(word, x, pen);
        if let End::Process(sender) = story.played.table.channels[usize::from(story.lives[word].channel)].0 {
            if let Some(to) = self.backup_of(sender).filter(|_| self.counts(sender)) {
                pen.arrow("counts", (x, self.y), (Self::beside(to, x), self.y + FAN));
            }
        }
        pen.dot("word", x, self.y, 4);
    }

    /// Only a complete backup counts.
    fn counts(&self, process: u8) -> bool {
        self.drawing.story.moments[self.row.from].scene.seats[usize::from(process)].backup.is_some()
    }

    /// A sync or a resync from the queue to the backup.
    fn landed(&self, board: u8, process: u8, class: &str, dropped: u32, pen: &mut Pen) {
        let x = self.drawing.lanes.boards[usize::from(board)].queue;
        if let Some(to) = self.backup_of(process) {
            pen.arrow("lands", (x, self.y), (Self::beside(to, x), self.y));
            if dropped > 0 {
                pen.words("dropped", to, self.y + 4, format_args!("−{dropped}"));
            }
        }
        pen.diamond(class, x, self.y);
    }

    /// A cross over the column, what was lost under it, and each process that goes on elsewhere.
    fn crashed(&self, board: u8, lost: &[Entry], moved: &[u8], pen: &mut Pen) {
        let (drawing, y) = (self.drawing, self.row.y);
        let column = &drawing.lanes.boards[usize::from(board)];
        let (left, right) = (column.x + 3, column.x + column.width - 3);
        for &p in moved {
            let after = &drawing.story.moments[self.row.from].scene.seats[usize::from(p)].end;
            let (from, to) = (drawing.lanes.lane(board, p), drawing.lanes.lane(after.board, p));
            let middle = (from + to) / 2;
            let end = self.y + 3;
            pen.path(
                &format!("moves {}", colour(p)),
                format_args!("M{from} {}C{middle} {} {middle} {end} {to} {end}", self.y, self.y),
            );
        }
        pen.line("cross", (left, y + 4), (right, y + CROSS - 4));
        pen.line("cross", (left, y + CROSS - 4), (right, y + 4));
        let mut lines: Vec<String> = lost.iter().take(LISTED).map(|entry| say::short_entry(drawing.story, entry)).collect();
        if lost.len() > LISTED {
            lines.push(format!("and {} more", lost.len() - LISTED));
        }
        for (i, line) in (0..).zip(&lines) {
            let top = y + CROSS + LINE * i;
            pen.rect("slip", column.x + 4, top, column.width - 8, LINE);
            pen.words("lost", column.x + column.width / 2, top + 10, line);
        }
    }

    /// A tick at whom the record was about.
    fn refused(&self, pen: &mut Pen) {
        let (story, lanes) = (self.drawing.story, &self.drawing.lanes);
        let a = story.played.records[self.row.from].a;
        let x = match story.played.kind(self.row.from) {
            Some(Move::Step | Move::Sync | Move::Resync) if usize::from(a) < story.start.seats.len() => {
                self.lane_of(a) - BAR / 2 - 3
            }
            Some(Move::Carry | Move::Crash | Move::Return) if usize::from(a) < lanes.boards.len() => {
                lanes.boards[usize::from(a)].queue
            }
            Some(Move::Feed) => lanes.outside,
            _ => NUMBER + 8,
        };
        let y = self.row.y + ROW / 2;
        pen.path("tick", format_args!("M{} {}l6 6m0 -6l-6 6", x - 3, y - 3));
    }
}
