//! What there is to see, in lines of text, and on one screen of a terminal. Both are made of the same parts.
use super::say::Said;
use super::sheet::{Panel, Sheet};
use super::shown::Shown;
use crate::output::{wide, Style};
use crate::words::many;
use kunzeastylus::BusWord;

/// How many instructions of a program are shown around its place, in lines; all of them are where they are asked for.
const PROGRAM_SHOWN: usize = 5;

/// How many at least are on a screen, and how many words of a list at most: as much as there is room for.
const ROOMY: [(usize, usize); 5] = [(usize::MAX, usize::MAX), (15, 16), (9, 8), (5, 4), (3, 2)];

/// Facts are folded where they stand beside a program, but not to less than this.
const FACTS_LEAST: usize = 44;

/// All of it in lines: a program stands below its facts.
pub fn in_lines(sheet: Sheet, shown: &Shown, before: Option<&Shown>) -> String {
    let mut lines: Vec<String> = shown.last.iter().flat_map(|last| sheet.last(last)).collect();
    for panel in sheet.panels(shown, before) {
        lines.extend(below(&panel, PROGRAM_SHOWN));
    }
    lines.extend(sheet.rest(shown, before));
    ended(&lines)
}

/// The same on one screen of so many rows, with the notes above: a program stands beside its facts. Where that is too high, less is shown of
/// programs and lists; and then processes are in a line each, but for as many as there is room for, first those that something happened to.
/// Blank lines make it a whole screen, so that all screens stand alike.
pub fn on_screen(sheet: Sheet, shown: &Shown, before: Option<&Shown>, notes: &[String], rows: usize) -> String {
    // The last row is for what is typed.
    let room = rows.saturating_sub(1);
    let mut fitted = Vec::new();
    for (around, most) in ROOMY {
        let sheet = Sheet { said: Said { most, ..sheet.said }, ..sheet };
        let head = notes.iter().cloned().chain(shown.last.iter().flat_map(|last| sheet.last(last)));
        let head: Vec<String> = head.flat_map(|line| folded(&line, sheet.style)).collect();
        let rest: Vec<String> = sheet.rest(shown, before).iter().flat_map(|line| folded(line, sheet.style)).collect();
        let panels = sheet.panels(shown, before);
        let whole = beside(&panels, around, sheet.style);
        let short: Vec<Vec<String>> = panels.iter().map(|panel| folded(&panel.short, sheet.style)).collect();
        let others = head.len() + rest.len();
        let fits = others + whole.iter().map(Vec::len).sum::<usize>() <= room;
        let middle = if fits { whole } else { as_many(&panels, whole, short, room.saturating_sub(others)) };
        fitted = head.into_iter().chain(middle.concat()).chain(rest).collect();
        if fits {
            break;
        }
    }
    cut(&mut fitted, room);
    fitted.resize(fitted.len().max(room), String::new());
    ended(&fitted)
}

/// Leaves out what there is no room for at all, but for the last line.
fn cut(lines: &mut Vec<String>, room: usize) {
    let more = (lines.len() + 1).saturating_sub(room);
    if more > 1 && room > 3 {
        let last = lines.len() - 1;
        lines.splice(last - more..last, [format!("  .. {more} lines more: show")]);
    }
}

/// Whole panels as far as there is room, and the others in a line each.
fn as_many(panels: &[Panel], whole: Vec<Vec<String>>, mut short: Vec<Vec<String>>, room: usize) -> Vec<Vec<String>> {
    let mut order: Vec<usize> = (0..panels.len()).collect();
    order.sort_by_key(|p| !panels[*p].busy);
    let mut left = room.saturating_sub(short.iter().map(Vec::len).sum());
    for p in order {
        let more = whole[p].len().saturating_sub(short[p].len());
        if more <= left {
            left -= more;
            short[p].clone_from(&whole[p]);
        }
    }
    short
}

/// Every word on the bus so far, one a line.
pub fn bus_so_far(said: Said, bus: &[BusWord]) -> String {
    let lines: String = bus.iter().zip(1..).map(|(word, i)| format!("{i:>5}  {}\n", said.on_the_bus(word))).collect();
    format!("{} on the bus\n{lines}", many(bus.len(), "word", "words"))
}

/// The whole program of a process.
pub fn program(sheet: Sheet, shown: &Shown, p: usize) -> String {
    let name = sheet.said.names.program_name(p as u32);
    let lines = sheet.program(p, shown.cabinet.processes()[p].place as usize);
    format!("{name}\n{}", ended(&lines.iter().map(|line| format!("  {line}")).collect::<Vec<_>>()))
}

fn ended(lines: &[String]) -> String {
    lines.iter().map(|line| line.trim_end().to_string() + "\n").collect()
}

/// A line in lines that are no wider than the style has it.
fn folded(line: &str, style: Style) -> Vec<String> {
    style.fold(line).lines().map(str::to_string).collect()
}

/// The lines of a program around its place, so many of them.
fn around(panel: &Panel, most: usize) -> &[String] {
    let all = panel.program.len();
    let from = panel.place.saturating_sub(most / 2).min(all.saturating_sub(most));
    &panel.program[from..all.min(from.saturating_add(most))]
}

/// A program below its facts.
fn below(panel: &Panel, most: usize) -> Vec<String> {
    panel.facts.iter().cloned().chain(around(panel, most).iter().map(|line| format!("     {line}"))).collect()
}

/// Facts and programs side by side, or one below the other where that would be too narrow.
fn beside(panels: &[Panel], most: usize, style: Style) -> Vec<Vec<String>> {
    let right = panels.iter().flat_map(|panel| &panel.program).map(|line| wide(line)).max().unwrap_or(0);
    let left = style.width.saturating_sub(right + 3);
    let narrow = Style { width: left, ..style };
    let one = |panel: &Panel| -> Vec<String> {
        if left < FACTS_LEAST {
            return below(panel, most).iter().flat_map(|line| folded(line, style)).collect();
        }
        let facts: Vec<String> = panel.facts.iter().flat_map(|fact| folded(fact, narrow)).collect();
        let program = around(panel, most.max(facts.len()));
        let at = |lines: &[String], i: usize| lines.get(i).cloned().unwrap_or_default();
        let row = |i: usize| {
            let fact = at(&facts, i);
            format!("{fact}{} | {}", " ".repeat(left.saturating_sub(wide(&fact))), at(program, i))
        };
        (0..facts.len().max(program.len())).map(row).collect()
    };
    panels.iter().map(one).collect()
}
