//! The whole run in a strip: where each process runs, dead boards, crashes, words on the bus and refusals, over the same heights as the
//! rows.
use super::draw::{colour, Drawing};
use super::layout::Row;
use super::pen::Pen;
use super::story::Event;
use kunzeastylus::Code;

/// How wide the strip is, in its own measure, and into how many parts words and refusals are gathered.
pub const WIDTH: i32 = 64;
const PARTS: usize = 240;
const EDGE: i32 = 10;

pub fn strip(drawing: &Drawing, rows: &[Row], height: i32) -> String {
    let mut pen = Pen::default();
    pen.put(format_args!("<svg id=\"whole\" viewBox=\"0 0 {WIDTH} {}\" preserveAspectRatio=\"none\">\n", height.max(1)));
    pen.rect("paper", 0, 0, WIDTH, height.max(1));
    let counted = |is: fn(Code) -> bool| parts(drawing, rows, height, is);
    gathered(&counted(|code| code == Code::OnTheBus), "density", 0, height, &mut pen);
    gathered(&counted(Code::refused), "density refusals", WIDTH - EDGE, height, &mut pen);
    boards(drawing, rows, height, &mut pen);
    for row in rows {
        if let Event::Crashed { .. } = drawing.story.moments[row.from].event {
            pen.line("crashed", (0, row.middle()), (WIDTH, row.middle()));
        }
    }
    pen.put(format_args!("<rect id=\"seen\" x=\"0\" y=\"0\" width=\"{WIDTH}\" height=\"0\"/></svg>\n"));
    pen.text
}

/// How many records of a kind each part of the height has.
fn parts(drawing: &Drawing, rows: &[Row], height: i32, is: fn(Code) -> bool) -> Vec<usize> {
    let mut parts = vec![0; PARTS];
    for row in rows {
        let at = (row.y as usize * PARTS) / height.max(1) as usize;
        parts[at.min(PARTS - 1)] += (row.from..=row.to).filter(|&i| is(drawing.story.played.ran.answers[i].code)).count();
    }
    parts
}

/// The parts as rectangles at one edge, the wider the more there is.
fn gathered(parts: &[usize], class: &str, x: i32, height: i32, pen: &mut Pen) {
    let most = parts.iter().copied().max().unwrap_or(0).max(1);
    for (i, &n) in parts.iter().enumerate().filter(|(_, n)| **n > 0) {
        let (from, to) = (height * i as i32 / PARTS as i32, height * (i as i32 + 1) / PARTS as i32);
        let width = ((EDGE as usize * n).div_ceil(most)) as i32;
        pen.rect(class, if x == 0 { 0 } else { x + EDGE - width }, from, width, (to - from).max(1));
    }
}

/// Each board a band, dead or with a line for each process that runs there.
fn boards(drawing: &Drawing, rows: &[Row], height: i32, pen: &mut Pen) {
    let scene = |i: usize| rows.get(i).map(|row| &drawing.story.moments[row.to].scene);
    let boards = drawing.lanes.boards.len() as i32;
    let (width, left) = ((WIDTH - 2 * EDGE - 4) / boards, EDGE + 2);
    let mut from = 0;
    for i in 0..rows.len() {
        let now = scene(i).expect("a row");
        let (running, dead) = (now.seats.iter().map(|s| s.end.board), now.boards.iter().map(|b| b.dead));
        let same = scene(i + 1).is_some_and(|next| {
            running.clone().eq(next.seats.iter().map(|s| s.end.board)) && dead.clone().eq(next.boards.iter().map(|b| b.dead))
        });
        if same {
            continue;
        }
        let to = rows.get(i + 1).map_or(height, |row| row.change());
        for (b, dead) in (0..).zip(dead) {
            pen.rect(if dead { "gap" } else { "band" }, left + width * b, from, (width - 1).max(1), to - from);
        }
        let count = drawing.story.start.seats.len() as i32;
        for (p, board) in (0..).zip(running) {
            let x = left + width * i32::from(board) + (width - 1) * i32::from(p) / count;
            pen.rect(&format!("bar {}", colour(p)), x, from, (width / count).max(1), to - from);
        }
        from = to;
    }
}
