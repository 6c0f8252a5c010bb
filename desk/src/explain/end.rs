//! The end of a run: each board, each process with what a step would answer now, and why the cabinet isn't quiet.
use super::done::{by_channel, queue, state};
use super::{refused, waits, Explaining};
use crate::records::RECORDS_MOST;
use crate::words::{self, list, many};
use kunzeastylus::{Answer, BackupState, Record, View};
use std::fmt::Write;

/// Before what stands beneath a line.
const BENEATH: &str = "    ";

pub fn end(run: &Explaining, text: &mut String) {
    let view = run.view(run.played.records.len());
    let steps: Vec<Option<Answer>> = (0..view.processes().len()).map(|p| run.step_now(p as u8)).collect();
    for board in 0..view.boards().len() {
        writeln!(text, "{}", of_board(run, &view, board)).unwrap();
    }
    for (p, end) in run.played.ran.ends.iter().enumerate() {
        writeln!(text, "{}", run.spoken.stands(p, *end, run.next(&view, p as u32))).unwrap();
        for line in of_process(run, &view, p, steps[p]) {
            writeln!(text, "{BENEATH}{line}").unwrap();
        }
    }
    writeln!(text, "{}", quiet(run, &view, &steps)).unwrap();
}

/// Whether a board is live, what runs there, what it backs up, and its queue.
fn of_board(run: &Explaining, view: &View, board: usize) -> String {
    if view.boards()[board].is_dead() {
        return format!("board {board} is dead");
    }
    let those = |there: &dyn Fn(usize) -> bool| -> Vec<String> {
        (0..view.processes().len()).filter(|p| there(*p)).map(|p| run.spoken.process(p as u32)).collect()
    };
    let runs = those(&|p| view.processes()[p].board as usize == board);
    let backed = those(&|p| {
        let backup = &view.processes()[p].backup;
        backup.state() == BackupState::Complete && backup.board as usize == board
    });
    let queue = match view.boards()[board].waiting {
        0 => "its queue is empty".to_string(),
        _ => format!("in its queue {}", queue(run, &view.boards()[board])),
    };
    format!("board {board} is live: runs {}; backs up {}; {queue}", list(&runs), list(&backed))
}

/// What a step would answer now, the unread words by channel, and the backup.
fn of_process(run: &Explaining, view: &View, p: usize, step: Option<Answer>) -> Vec<String> {
    let process = &view.processes()[p];
    let mut lines = vec![step_now(run, view, p as u32, step)];
    let unread: Vec<(u8, u32)> = process.inbox().iter().map(|word| (word.channel as u8, word.word)).collect();
    if !unread.is_empty() {
        lines.push(format!("unread on {}", by_channel(run, &unread)));
    }
    let backup = &process.backup;
    lines.push(match backup.state() {
        BackupState::Complete => {
            let carried = many(backup.count as usize, "word", "words");
            format!("its backup on board {}: {}; {carried} carried since", backup.board, state(run, p as u32, backup))
        }
        _ => refused::unbacked(run, view, p as u32),
    });
    lines
}

/// What a step would answer now, and what would help where that is a refusal.
fn step_now(run: &Explaining, view: &View, p: u32, step: Option<Answer>) -> String {
    let Some(answer) = step else {
        return format!("what a step would answer now can't be asked: a run has {RECORDS_MOST} records at most");
    };
    let (record, next) = (Record::step(p as u8), run.next(view, p));
    let registers = view.processes()[p as usize].registers;
    let words = run.spoken.outcome(record, answer, next.map(|next| (next, registers)));
    let helps = if answer.code.refused() { refused::why(run, view, record, answer, next) } else { Vec::new() };
    format!("a step now: {}", [vec![words], helps].concat().join("; "))
}

/// Whether the cabinet is quiet, and where it isn't, which of the reasons holds.
fn quiet(run: &Explaining, view: &View, steps: &[Option<Answer>]) -> String {
    if run.played.ran.quiet {
        return words::quiet(true).to_string();
    }
    let mut reasons = Vec::new();
    for (board, b) in view.boards().iter().zip(0..).filter(|(board, _)| board.waiting > 0) {
        reasons.push(format!("the queue of board {b} has {}", many(board.waiting as usize, "entry", "entries")));
    }
    let carried = !reasons.is_empty();
    let going = steps.iter().zip(0u32..).filter_map(|(step, p)| step.filter(|answer| !waits(*answer)).map(|answer| (p, answer)));
    let going: Vec<(u32, Answer)> = going.collect();
    for (p, answer) in &going {
        let name = run.spoken.process(*p);
        reasons.push(match answer.code.refused() {
            true => format!("{name} would go on but for {}, {}", answer.code.number(), answer.reason.words()),
            false => format!("{name} could go on"),
        });
    }
    let held = |answer: &Answer| answer.code == kunzeastylus::Code::ChannelHeld;
    let still = !carried && !going.is_empty() && going.iter().all(|(_, answer)| held(answer));
    if still {
        reasons.push("the cabinet stands still: a channel is full and its reader leaves it unread".to_string());
    }
    match reasons.is_empty() {
        true => words::quiet(false).to_string(),
        false => format!("not quiet: {}", reasons.join("; ")),
    }
}
