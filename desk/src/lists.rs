//! A table's lists as text: decimal numbers under a heading for each list, `#` up to the end of a line for comments. Under `instructions`
//! a code may be its mnemonic, SET to JUMP. Where there is a heading `limits`, the table is of version 2.
use crate::form::keywords::or;
use crate::form::lexer::Wrong;
use crate::place::{self, Called, Fault, Spot};
use kunzeastylus::{Counts, Instruction, Lists, OUTSIDE};
use std::fmt::Write;

/// The headings, in the order in which they are printed.
const HEADINGS: [&str; 5] = ["counts", "ends", "placements", "limits", "instructions"];
const COUNTS: usize = 0;
const ENDS: usize = 1;
const PLACEMENTS: usize = 2;
const LIMITS: usize = 3;
const INSTRUCTIONS: usize = 4;

/// The mnemonic of each code.
pub fn mnemonic(code: u32) -> Option<&'static str> {
    let code = Instruction::try_from(u8::try_from(code).ok()?).ok()?;
    Some(["SET", "ADD", "TAKE", "FIRST", "SEND", "JUMP"][code.number() as usize - 1])
}

/// The lists, and the line on which each number of each list stands.
#[derive(Clone, Debug, Default, PartialEq, Eq)]
pub struct Text {
    pub lists: Lists,
    pub lines: [Vec<usize>; 5],
}

/// What the text says, and all that is wrong with it.
pub fn parse(text: &str) -> (Text, Vec<Wrong>) {
    let mut found: [Option<Vec<u32>>; 5] = Default::default();
    let mut lines: [Vec<usize>; 5] = Default::default();
    let mut wrong = Vec::new();
    let mut now = None;
    let words = text
        .lines()
        .zip(1..)
        .flat_map(|(line, i)| line.split('#').next().unwrap_or("").split_whitespace().map(move |word| (word, i)));
    for (word, line) in words {
        if let Some(heading) = HEADINGS.iter().position(|&heading| heading == word) {
            if found[heading].replace(Vec::new()).is_some() {
                wrong.push(Wrong::new(line, format!("found a second `{word}`, expected one")));
            }
            now = Some(heading);
            continue;
        }
        let code = (1..=6).find(|&code| now == Some(INSTRUCTIONS) && mnemonic(code) == Some(word));
        match (now, code.or_else(|| number(word))) {
            (Some(heading), Some(number)) => {
                found[heading].get_or_insert_with(Vec::new).push(number);
                lines[heading].push(line);
            }
            (None, _) => wrong.push(Wrong::new(line, format!("found `{word}`, expected a heading: {}", or(&HEADINGS)))),
            (_, None) => {
                let expected = format!("a decimal number up to {} or a heading: {}", u32::MAX, or(&HEADINGS));
                wrong.push(Wrong::new(line, format!("found `{word}`, expected {expected}")));
            }
        }
    }
    let last = text.lines().count().max(1);
    let lists = lists(found, &lines, last, &mut wrong);
    (Text { lists, lines }, wrong)
}

/// The lists by their headings; all but that of the limits have to be there.
fn lists(found: [Option<Vec<u32>>; 5], lines: &[Vec<usize>; 5], last: usize, wrong: &mut Vec<Wrong>) -> Lists {
    for heading in [COUNTS, ENDS, PLACEMENTS, INSTRUCTIONS] {
        if found[heading].is_none() {
            wrong.push(Wrong::new(last, format!("found the end, expected a heading `{}`", HEADINGS[heading])));
        }
    }
    let [counts, ends, placements, limits, instructions] = found;
    let counts = counts.map(|counts| match counts[..] {
        [boards, processes, channels] => Counts { boards, processes, channels },
        _ => {
            let line = lines[COUNTS].last().copied().unwrap_or(last);
            let what = format!("found {} numbers under counts, expected 3: boards, processes and channels", counts.len());
            wrong.push(Wrong::new(line, what));
            Counts::default()
        }
    });
    Lists {
        version: if limits.is_none() { 1 } else { 2 },
        counts: counts.unwrap_or_default(),
        ends: ends.unwrap_or_default(),
        placements: placements.unwrap_or_default(),
        limits: limits.unwrap_or_default(),
        instructions: instructions.unwrap_or_default(),
    }
}

impl Text {
    /// The line of a part of the table.
    pub fn line(&self, spot: Spot) -> usize {
        let before =
            |p: usize| self.lists.placements.chunks_exact(3).take(p).map(|placement| placement[2] as usize).sum::<usize>();
        let (heading, at) = match spot {
            Spot::Processes => (COUNTS, 1),
            Spot::Channels => (COUNTS, 2),
            Spot::Channel(k) => (ENDS, 2 * k),
            Spot::Process(p) => (PLACEMENTS, 3 * p),
            Spot::Limit(p) => (LIMITS, p),
            Spot::Instruction(p, i) => (INSTRUCTIONS, 3 * (before(p) + i)),
            _ => (COUNTS, 0),
        };
        self.lines[heading].get(at).or(self.lines[heading].last()).or(self.lines[COUNTS].first()).copied().unwrap_or(1)
    }
}

/// Digits alone: no sign.
fn number(word: &str) -> Option<u32> {
    word.bytes().all(|byte| byte.is_ascii_digit()).then(|| word.parse().ok())?
}

/// What a channel's end is called.
fn end(number: u32) -> String {
    match number {
        n if n == u32::from(OUTSIDE) => "the outside".to_string(),
        n => format!("process {n}"),
    }
}

/// For each process its number and its place in the list of placements, with the instructions that are its own.
fn programs(lists: &Lists) -> impl Iterator<Item = (usize, &[u32], &[u32])> {
    let mut rest = &lists.instructions[..];
    lists.placements.chunks(3).enumerate().map(move |(p, placement)| {
        let (own, others) = rest.split_at((3 * placement[2] as usize).min(rest.len()));
        rest = others;
        (p, placement, own)
    })
}

/// The text of the lists of an accepted table.
pub fn print(lists: &Lists) -> String {
    let mut text = String::new();
    let Counts { boards, processes, channels } = lists.counts;
    writeln!(text, "counts            # boards, processes, channels\n{boards} {processes} {channels}\n").unwrap();
    writeln!(text, "ends              # of each channel: sender, reader; {OUTSIDE} is the outside").unwrap();
    for (k, pair) in lists.ends.chunks(2).enumerate() {
        let numbers = format!("{} {}", pair[0], pair[1]);
        writeln!(text, "{numbers:<18}# {k}: {} to {}", end(pair[0]), end(pair[1])).unwrap();
    }
    writeln!(text, "\nplacements        # of each process: primary board, backup board, n").unwrap();
    for (p, placement) in lists.placements.chunks(3).enumerate() {
        let numbers = format!("{} {} {}", placement[0], placement[1], placement[2]);
        writeln!(text, "{numbers:<18}# process {p}").unwrap();
    }
    if lists.version != 1 {
        writeln!(text, "\nlimits            # of each process: how many acts ask for a sync").unwrap();
        for (p, limit) in lists.limits.iter().enumerate() {
            writeln!(text, "{limit:<18}# process {p}").unwrap();
        }
    }
    writeln!(text, "\ninstructions      # of all processes: code, a, operand").unwrap();
    for (p, _, own) in programs(lists) {
        for (place, i) in own.chunks(3).enumerate() {
            let numbers = format!("{} {} {}", mnemonic(i[0]).unwrap_or("?"), i[1], i[2]);
            writeln!(text, "{numbers:<18}# process {p}, place {place}").unwrap();
        }
    }
    text
}

/// All that is wrong with lists for which this number refuses them: 4 of a list's length, and what is wrong with any table.
pub fn faults(lists: &Lists, number: u8) -> Vec<Fault> {
    let mut faults = place::table::of_lists(lists, number, Called::default());
    if number == 4 {
        faults.extend(lengths(lists).into_iter().map(|(spot, what)| Fault { number, spot, what }));
    }
    faults
}

/// Which lists are not as long as the counts say.
fn lengths(lists: &Lists) -> Vec<(Spot, String)> {
    let (processes, channels) = (lists.counts.processes as usize, lists.counts.channels as usize);
    let wants = |spot: Spot, heading: usize, has: usize, wanted: usize, why: String| {
        (has != wanted).then(|| (spot, format!("{}: {has} numbers, and {wanted} are wanted, {why}", HEADINGS[heading])))
    };
    let total: usize = lists.placements.chunks_exact(3).map(|placement| placement[2] as usize).sum();
    let limits = if lists.version == 1 { 0 } else { processes };
    let each = |count: usize, what: &str| format!("for each of {count} {what}");
    let found = [
        wants(Spot::Channel(channels), ENDS, lists.ends.len(), 2 * channels, format!("two {}", each(channels, "channels"))),
        wants(
            Spot::Process(processes),
            PLACEMENTS,
            lists.placements.len(),
            3 * processes,
            format!("three {}", each(processes, "processes")),
        ),
        wants(Spot::Limit(processes), LIMITS, lists.limits.len(), limits, format!("one {}", each(processes, "processes"))),
        wants(
            Spot::Instruction(0, total),
            INSTRUCTIONS,
            lists.instructions.len(),
            3 * total,
            format!("three {}", each(total, "instructions")),
        ),
    ];
    found.into_iter().flatten().collect()
}
