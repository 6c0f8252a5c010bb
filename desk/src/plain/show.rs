//! The plain run to look at: in words, as moves, as JSON.
use super::cabinet::{Did, Plain, PlainMove};
use super::check::{Held, Inboxes};
use super::witness::Beside;
use crate::played::Played;
use crate::words;
use kunzeastylus::{Code, End, Fate, Move, Operation, Reason};
use std::fmt::Write;

/// How wide our half of a line is.
const OURS: usize = 41;

/// Our records, each with the moves of the plain run that are made for it beside it; then the end, and what was compared.
pub fn words(played: &Played, found: &[Beside], held: &Held) -> String {
    let mut text = format!("{}\n", words::heading(played.records.len(), &played.table));
    let count = |n, one, several| words::many(n, one, several);
    let moves = format!("{} and {}", count(held.feeds, "feed", "feeds"), count(held.steps, "step", "steps"));
    writeln!(text, "{:<OURS$}| the plain run: {moves}", "our records").unwrap();
    let mut cabinet = Plain::new(&played.table);
    let mut moves = found.iter().zip(1..).peekable();
    for i in (0..played.records.len()).map(Some).chain([None]) {
        let mut ours = i.map_or(if played.ran.quiet { "the end is quiet" } else { "" }.to_string(), |i| record(played, i));
        while let Some((beside, number)) = moves.next_if(|(beside, _)| beside.record == i) {
            writeln!(text, "{ours:<OURS$}| {number:>5}  {}", made(&mut cabinet, beside.plain)).unwrap();
            ours = String::new();
        }
        if !ours.is_empty() {
            writeln!(text, "{ours:<OURS$}|").unwrap();
        }
    }
    text + &ended(played, &cabinet) + &compared(held)
}

/// A record and its answer, in few words.
fn record(played: &Played, i: usize) -> String {
    let (given, answer) = (played.records[i], played.ran.answers[i]);
    let mark = if matches!(played.ran.fates[i], Fate::TakenBackBy(_)) { words::TAKEN_BACK } else { ' ' };
    let record = match (played.kind(i), answer.code.refused()) {
        (Some(Move::Feed), true) => format!("feed channel {}", given.a),
        _ => words::record(&given.bytes(), |_| None),
    };
    let what = match (answer.code, played.kind(i)) {
        (Code::Done, _) | (Code::OnTheBus, Some(Move::Feed)) => String::new(),
        (Code::Took, _) => ": took".to_string(),
        (Code::Queued, _) => ": queued".to_string(),
        (Code::HeldBack, _) => ": held back".to_string(),
        (Code::OnTheBus, _) => ": on the bus".to_string(),
        (Code::SyncCarried, _) if answer.reason == Reason::ResyncCarried => format!(": resync of {}", answer.a),
        (Code::SyncCarried | Code::SyncUnbacked, _) => format!(": sync of {}", answer.a),
        (Code::TakenBack, _) => match played.ran.fates[i] {
            Fate::TookBack(taken) => format!(", takes back {}", taken + 1),
            _ => String::new(),
        },
        (code, _) => format!(": refused {}", code.number()),
    };
    format!("{:>5}{mark} {record}{what}", i + 1)
}

/// A move of the plain run, made and said.
fn made(cabinet: &mut Plain, plain: PlainMove) -> String {
    let PlainMove::Step { process } = plain else {
        cabinet.make(plain).expect("a move that was checked");
        return match plain {
            PlainMove::Feed { channel, word } => format!("feed channel {channel}, word {word}"),
            PlainMove::Step { .. } => unreachable!(),
        };
    };
    let (place, operation) = (cabinet.machines[usize::from(process)].place, cabinet.next(process));
    let did = cabinet.make(plain).expect("a move that was checked");
    let what = match (operation.expect("an instruction that was done"), did) {
        (Operation::First { .. }, Did::Took { channel, word }) => format!("FIRST {word} from channel {channel}"),
        (_, Did::Took { channel, word }) => format!("TAKE {word} from channel {channel}"),
        (_, Did::Put(sent)) => format!("SEND {} on channel {}", sent.word, sent.channel),
        (Operation::Set { register, word }, _) => format!("SET register {register} to {word}"),
        (Operation::Add { register, other }, _) => format!("ADD register {other} to register {register}"),
        (Operation::Jump { .. }, _) => format!("JUMP, now at {}", cabinet.machines[usize::from(process)].place),
        (Operation::Take { .. } | Operation::First { .. } | Operation::Send { .. }, Did::Calculated) => unreachable!(),
    };
    format!("process {process}, place {place}: {what}")
}

/// Where the plain cabinet's processes are, at a quiet end.
fn ended(played: &Played, cabinet: &Plain) -> String {
    let mut text = String::new();
    for (p, machine) in cabinet.machines.iter().enumerate().filter(|_| played.ran.quiet) {
        let [r0, r1, r2, r3] = machine.registers;
        let unread = words::many(machine.inbox.len(), "word", "words");
        writeln!(text, "process {p} ends at place {}; {unread} unread; registers {r0} {r1} {r2} {r3}", machine.place).unwrap();
    }
    text
}

/// What was compared, and agrees.
fn compared(held: &Held) -> String {
    let on_the_bus = words::many(held.words, "word", "words");
    let end = match held.quiet {
        true => "at the quiet end, places, registers and unread\nwords; and no process could step",
        false => "the end is not quiet, so it\nis not compared",
    };
    format!("checked from nothing, and the same: {on_the_bus} on the bus, each with channel, word, sender\nand place; the feeds, in order; {end}\n")
}

/// The moves alone.
pub fn moves(moves: &[PlainMove]) -> String {
    let line = |plain: &PlainMove| match plain {
        PlainMove::Feed { channel, word } => format!("feed {channel} {word}\n"),
        PlainMove::Step { process } => format!("step {process}\n"),
    };
    moves.iter().map(line).collect()
}

/// All that `docs/witness.py` asks for, on one line.
pub fn json(played: &Played, inboxes: &Inboxes, moves: &[PlainMove]) -> String {
    let hex = |bytes: &[u8]| bytes.iter().map(|byte| format!("{byte:02X}")).collect::<String>();
    let list = |items: Vec<String>| format!("[{}]", items.join(","));
    let answers = played.ran.answers.iter().map(|answer| {
        let (sender, place) = answer.bus.map_or((255, 255), |word| match word.sender {
            End::Process(process) => (process, word.place),
            End::Outside => (255, word.place),
        });
        format!("[{},{},{},{sender},{place}]", answer.code.number(), answer.a, answer.word)
    });
    let report = played.ran.ends.iter().map(|end| {
        let [r0, r1, r2, r3] = end.registers;
        format!("[{},{},{},{},{r0},{r1},{r2},{r3}]", end.board, end.place, end.unread, end.hold_back)
    });
    let inboxes = inboxes.iter().map(|inbox| list(inbox.iter().map(|(channel, word)| format!("[{channel},{word}]")).collect()));
    let moves = moves.iter().map(|plain| match plain {
        PlainMove::Feed { channel, word } => format!("[\"feed\",{channel},{word}]"),
        PlainMove::Step { process } => format!("[\"step\",{process}]"),
    });
    format!(
        "{{\"table\":\"{}\",\"schedule\":\"{}\",\"answers\":{},\"report\":{},\"inboxes\":{},\"quiet\":{},\"plain\":{}}}\n",
        hex(&played.bytes.table),
        hex(&played.bytes.schedule),
        list(answers.collect()),
        list(report.collect()),
        list(inboxes.collect()),
        played.ran.quiet,
        list(moves.collect())
    )
}
