//! The lines of records: which there are, equal refusals in a row as one, and what stands beneath each.
use super::{summary, Asked, Explaining};
use crate::words;
use kunzeastylus::{Code, Fate};
use std::fmt::Write;

/// More lines than this are a flood: where no part of the run is asked for, there is a summary instead.
pub const FLOOD: usize = 400;

/// Before what stands beneath a line.
const BENEATH: &str = "           ";

/// A record, or equal refusals in a row, with nothing done between them.
struct Row {
    first: usize,
    last: usize,
    count: usize,
}

/// A line for each record that is asked for.
pub fn lines(run: &Explaining, asked: &Asked, text: &mut String) {
    let rows = rows(run, asked);
    if rows.len() > FLOOD && !asked.all && !asked.part() {
        let records = rows.iter().map(|row| row.count).sum::<usize>();
        writeln!(
            text,
            "{records} records make {} lines, so here is a summary; --from, --to and --only show some, --all shows all",
            rows.len()
        )
        .unwrap();
        summary::summary(run, text);
        return;
    }
    for row in rows {
        line(run, &row, text);
    }
}

fn rows(run: &Explaining, asked: &Asked) -> Vec<Row> {
    let mut rows: Vec<Row> = Vec::new();
    for i in (0..run.played.records.len()).filter(|i| asked.wants(run, *i)) {
        match rows.last_mut().filter(|row| !asked.all && same(run, row.last, i)) {
            Some(row) => (row.last, row.count) = (i, row.count + 1),
            None => rows.push(Row { first: i, last: i, count: 1 }),
        }
    }
    rows
}

/// Whether two records are refused alike, with nothing done between them, and neither is taken back.
fn same(run: &Explaining, first: usize, second: usize) -> bool {
    let (played, sources) = (run.played, &run.given.sources);
    let given = |i: usize| !matches!(sources[i], super::Source::Put(_));
    let stands = |i: usize| matches!(played.ran.fates[i], Fate::Stands | Fate::TookNothing);
    given(first)
        && given(second)
        && stands(first)
        && stands(second)
        && played.records[first] == played.records[second]
        && played.ran.answers[first] == played.ran.answers[second]
        && played.ran.answers[first..=second].iter().all(|answer| answer.code.refused())
}

fn line(run: &Explaining, row: &Row, text: &mut String) {
    let Row { first, last, count } = *row;
    let name = |i: usize| run.given.sources[i].name();
    let does = |_| run.spots[first].map(|_| run.spoken.next(run.operation(first)));
    let record = run.spoken.record(&run.played.records[first].bytes(), does);
    let mark = match run.played.ran.fates[first] {
        Fate::TakenBackBy(_) => words::TAKEN_BACK,
        _ => ' ',
    };
    let times = if count > 1 { format!(" ({count} times, up to record {})", name(last)) } else { String::new() };
    writeln!(text, "{}", words::line(&name(first), mark, &record, &format!("{}{times}", answer(run, first)))).unwrap();
    for what in run.beneath(first) {
        writeln!(text, "{BENEATH}{what}").unwrap();
    }
}

/// The answer in words, with the record that a back took back by its name.
fn answer(run: &Explaining, i: usize) -> String {
    let (record, answer) = (run.played.records[i], run.played.ran.answers[i]);
    match run.played.ran.fates[i] {
        Fate::TookBack(taken) if answer.code == Code::TakenBack => {
            run.spoken.answer(answer, Some(&run.given.sources[taken].name()))
        }
        _ => run.spoken.outcome(record, answer, run.operation(i).zip(run.spots[i].map(|spot| spot.registers))),
    }
}
