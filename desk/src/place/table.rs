//! What is wrong with a table that is refused, by the number that refuses it: document 01, "What each move replies", and W-207.
use super::draft::{byte, head, Draft, Process};
use super::{and, Called, Fault, Spot};
use kunzeastylus::{Instruction, Lists, OUTSIDE};

/// The most that the length field may say, and the most instructions of a process.
const LENGTH_MOST: usize = 6_276;
const INSTRUCTIONS_MOST: u32 = 64;

/// All that is wrong with a table's bytes for which this number refuses it.
pub fn of_bytes(table: &[u8], number: u8, called: Called) -> Vec<Fault> {
    let found = match number {
        1 => length(table),
        2 => vec![(Spot::Version, format!("the version is {}, and there are 1 and 2", byte(table, 2)))],
        4 => extent(table, called),
        _ => of_draft(&Draft::of_bytes(table), number, called),
    };
    faults(number, found)
}

/// All that is wrong with lists for which this number refuses them.
pub fn of_lists(lists: &Lists, number: u8, called: Called) -> Vec<Fault> {
    let draft = Draft::of_lists(lists);
    let found = match number {
        4 => long_programs(&draft, called),
        _ => of_draft(&draft, number, called),
    };
    faults(number, found)
}

fn faults(number: u8, found: Vec<(Spot, String)>) -> Vec<Fault> {
    found.into_iter().map(|(spot, what)| Fault { number, spot, what }).collect()
}

/// 3 and 5 to 8 and 47, which look at what a table says and not at how it is laid out.
fn of_draft(draft: &Draft, number: u8, called: Called) -> Vec<(Spot, String)> {
    match number {
        3 => counts(draft),
        5 => ends(draft, called),
        6 => reads(draft, called),
        7 => boards(draft, called),
        8 => instructions(draft, called),
        47 => limits(draft, called),
        _ => Vec::new(),
    }
}

/// 1: how long it is and how long it says that it is.
fn length(table: &[u8]) -> Vec<(Spot, String)> {
    let mut found = Vec::new();
    if table.len() < 6 {
        found.push((Spot::End, format!("the table has {} bytes, and at least 6 are wanted", table.len())));
    }
    if table.len() >= 2 {
        let says = 256 * byte(table, 0) + byte(table, 1);
        if says > LENGTH_MOST {
            found.push((Spot::Length, format!("the length field says {says}, and {LENGTH_MOST} is the most")));
        }
        if says != table.len() - 2 {
            found.push((Spot::Length, format!("the length field says {says}, {} bytes follow", table.len() - 2)));
        }
    }
    found
}

fn counts(draft: &Draft) -> Vec<(Spot, String)> {
    let outside = |spot, count: u32, least: u32, most: u32, what: &str| {
        (!(least..=most).contains(&count)).then(|| (spot, format!("{count} {what}, and there are {least} to {most}")))
    };
    let boards = outside(Spot::Boards, draft.boards, 2, 16, "boards");
    let processes = outside(Spot::Processes, draft.processes, 1, 16, "processes");
    let channels = outside(Spot::Channels, draft.channels, 1, 32, "channels");
    [boards, processes, channels].into_iter().flatten().collect()
}

/// 4: where the pairs and records end, and where the table does. What is behind the first fault can't be told apart.
fn extent(table: &[u8], called: Called) -> Vec<(Spot, String)> {
    let (end, head) = (table.len(), head(table));
    let mut at = 6 + 2 * byte(table, 5);
    if at > end {
        return vec![(Spot::End, format!("{} channels take {at} bytes, and the table has {end}", byte(table, 5)))];
    }
    for p in 0..byte(table, 4) {
        let it = called.process(p);
        if at + head > end {
            return vec![(Spot::End, format!("{it}: its record begins at byte {at}, and the table has {end} bytes"))];
        }
        let n = byte(table, at + head - 1);
        if n > INSTRUCTIONS_MOST as usize {
            return vec![(Spot::Process(p), format!("{it} has {n} instructions, and {INSTRUCTIONS_MOST} are the most"))];
        }
        at += head + 6 * n;
        if at > end {
            let what = format!("{it} has {n} instructions, which end with byte {at}, and the table has {end} bytes");
            return vec![(Spot::Process(p), what)];
        }
    }
    match end - at {
        0 => Vec::new(),
        left => vec![(Spot::End, format!("the process records end with byte {at}, and {left} more follow in the table"))],
    }
}

/// 4, of what is no bytes yet.
fn long_programs(draft: &Draft, called: Called) -> Vec<(Spot, String)> {
    let long = draft.programs.iter().enumerate().filter(|(_, process)| process.n > INSTRUCTIONS_MOST);
    long.map(|(p, process)| {
        let what = format!("{} has {} instructions, and {INSTRUCTIONS_MOST} are the most", called.process(p), process.n);
        (Spot::Instruction(p, INSTRUCTIONS_MOST as usize), what)
    })
    .collect()
}

fn ends(draft: &Draft, called: Called) -> Vec<(Spot, String)> {
    let outside = u32::from(OUTSIDE);
    let wrong = |(k, pair): (usize, &[u32; 2])| {
        let it = called.channel(k);
        let end = |end: u32, what: &str| {
            (end >= draft.processes && end != outside).then(|| {
                let processes = draft.processes;
                (
                    Spot::Channel(k),
                    format!("{it}: its {what} is {end}, which is no process below {processes} and not {outside}, the outside"),
                )
            })
        };
        let both = (*pair == [outside, outside]).then(|| (Spot::Channel(k), format!("{it}: both its ends are the outside")));
        [end(pair[0], "sender"), end(pair[1], "reader"), both].into_iter().flatten().collect::<Vec<_>>()
    };
    draft.ends.iter().enumerate().flat_map(wrong).collect()
}

fn reads(draft: &Draft, called: Called) -> Vec<(Spot, String)> {
    let of = |p: usize| -> Vec<usize> {
        let read = draft.ends.iter().enumerate().filter(|(_, pair)| pair[1] as usize == p);
        read.map(|(k, _)| k).collect()
    };
    let many = (0..draft.processes as usize).map(|p| (p, of(p))).filter(|(_, read)| read.len() > 4);
    many.map(|(p, read)| {
        let list: Vec<String> = read.iter().map(usize::to_string).collect();
        let count = ["five", "six", "seven", "eight"].get(read.len() - 5).map_or(read.len().to_string(), |word| word.to_string());
        let what = format!("{} reads {count} channels: {}; four are the most", called.process(p), list.join(", "));
        (Spot::Channel(read[4]), what)
    })
    .collect()
}

fn boards(draft: &Draft, called: Called) -> Vec<(Spot, String)> {
    let wrong = |(p, process): (usize, &Process)| {
        let (it, boards) = (called.process(p), draft.boards);
        let over = |board: u32, what: &str| {
            (board >= boards)
                .then(|| (Spot::Process(p), format!("{it}: its {what} is {board}, and the boards are 0 to {}", boards - 1)))
        };
        let same = (process.primary == process.backup)
            .then(|| (Spot::Process(p), format!("{it}: its board and its backup's are both {}", process.primary)));
        [over(process.primary, "board"), over(process.backup, "backup's board"), same].into_iter().flatten().collect::<Vec<_>>()
    };
    draft.programs.iter().enumerate().flat_map(wrong).collect()
}

fn limits(draft: &Draft, called: Called) -> Vec<(Spot, String)> {
    let limited = draft.programs.iter().enumerate().filter_map(|(p, process)| process.limit.map(|limit| (p, limit)));
    let wrong = limited.filter(|(_, limit)| !(1..=16).contains(limit));
    wrong
        .map(|(p, limit)| (Spot::Limit(p), format!("{}: its limit is {limit}, and 1 to 16 are wanted", called.process(p))))
        .collect()
}

fn instructions(draft: &Draft, called: Called) -> Vec<(Spot, String)> {
    let mut found = Vec::new();
    for (p, process) in draft.programs.iter().enumerate() {
        for (i, &numbers) in process.instructions.iter().enumerate() {
            if let Some((name, why)) = instruction(draft, p, numbers, called) {
                found.push((Spot::Instruction(p, i), format!("{}, place {i}: {name}: {why}", called.process(p))));
            }
        }
    }
    found
}

/// What is wrong with an instruction of process `p`, and what it is called.
fn instruction(draft: &Draft, p: usize, [code, a, operand]: [u32; 3], called: Called) -> Option<(String, String)> {
    let Some(known) = u8::try_from(code).ok().and_then(|code| Instruction::try_from(code).ok()) else {
        return Some((format!("code {code}"), "the codes are 1 to 6".to_string()));
    };
    let name = crate::lists::mnemonic(code).unwrap_or("?");
    let end_is = |k: u32, side: usize| draft.ends.get(k as usize).is_some_and(|pair| pair[side] as usize == p);
    let channel = |k: u32| match (k as usize) < draft.ends.len() {
        true => called.channel(k as usize),
        false => format!("channel {k}, and the channels are 0 to {}", draft.ends.len().saturating_sub(1)),
    };
    let why = match known {
        Instruction::First if a == 3 => "register a + 1 is 4".to_string(),
        _ if a > 3 => format!("there is no register {a}"),
        Instruction::Add if operand > 3 => format!("there is no register {operand}"),
        Instruction::Take if !end_is(operand, 1) => format!("it doesn't read {}", channel(operand)),
        Instruction::First => mask(operand, |k| end_is(k, 1), channel)?,
        Instruction::Send if !end_is(operand, 0) => format!("it isn't the sender of {}", channel(operand)),
        Instruction::Jump if operand > draft.programs[p].n => {
            format!("there is no place {operand}, and the places are 0 to {}", draft.programs[p].n)
        }
        _ => return None,
    };
    Some((format!("{name} {a}"), why))
}

/// What is wrong with a mask of channels.
fn mask(mask: u32, reads: impl Fn(u32) -> bool, channel: impl Fn(u32) -> String) -> Option<String> {
    let set: Vec<u32> = (0..32).filter(|k| mask >> k & 1 == 1).collect();
    let unread: Vec<String> = set.iter().filter(|k| !reads(**k)).map(|k| channel(*k)).collect();
    match set.len() {
        0 => Some("its mask names no channel".to_string()),
        1..=4 if unread.is_empty() => None,
        1..=4 => Some(format!("it doesn't read {}", and(&unread))),
        n => Some(format!("its mask names {n} channels, and four are the most")),
    }
}
