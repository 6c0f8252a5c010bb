//! The words of the picture: of a row, of a word and its life, of an entry, of a process and of a board.
use super::scene::{Board, Entry, Seat, WordId};
use super::story::{Event, Stage, Story};
use crate::words;
use kunzeastylus::{End, Fate, Move, Operation, Record};

/// What a process is called: by its name, or by its number.
pub fn program(story: &Story, process: u8) -> String {
    story.spoken().process(process)
}

/// What a channel is called.
fn channel(story: &Story, channel: u8) -> String {
    story.spoken().channel(channel)
}

/// Which name stands for which number, where there are names.
pub fn called(story: &Story) -> Option<String> {
    let names = story.names.as_ref()?;
    let programs = names.programs.iter().enumerate().map(|(p, name)| format!("p{p} {name}"));
    let channels = names.channels.iter().enumerate().map(|(k, name)| format!("{k} {name}"));
    Some(format!("{}; channels {}", list(programs, "no programs"), list(channels, "none")))
}

/// The instruction at a seat's place; none where it has halted.
pub fn instruction(story: &Story, process: u8, seat: &Seat) -> Option<Operation> {
    story.played.table.processes[usize::from(process)].program.get(usize::from(seat.end.place)).copied()
}

/// A record in words, with its steps named by their instruction.
fn named(story: &Story, record: usize) -> String {
    let does = |process: u8| {
        let seat = story.before(record).seats.get(usize::from(process))?;
        Some(words::next(instruction(story, process, seat)))
    };
    words::record(&story.played.records[record].bytes(), does)
}

/// A record and its answer in full.
pub fn record(story: &Story, record: usize) -> [String; 2] {
    let taken = match story.played.ran.fates[record] {
        Fate::TookBack(taken) => Some((taken + 1).to_string()),
        _ => None,
    };
    [named(story, record), words::answer(story.played.ran.answers[record], taken.as_deref())]
}

pub fn word(story: &Story, word: WordId) -> String {
    let life = &story.lives[word];
    format!("{} on {}", life.word, channel(story, life.channel))
}

pub fn entry(story: &Story, entry: &Entry) -> String {
    match entry {
        Entry::Word(id) => word(story, *id),
        Entry::Sync { process, .. } => format!("sync of {}", program(story, *process)),
        Entry::Resync { process } => format!("resync of {}", program(story, *process)),
    }
}

/// An entry in as few characters as there are: channel and word, or S or R and the process.
pub fn short_entry(story: &Story, entry: &Entry) -> String {
    match entry {
        Entry::Word(id) => format!("{}:{}", story.lives[*id].channel, story.lives[*id].word),
        Entry::Sync { process, .. } => format!("S p{process}"),
        Entry::Resync { process } => format!("R p{process}"),
    }
}

/// A list in words, or `none`.
pub fn list(items: impl IntoIterator<Item = String>, none: &str) -> String {
    let items: Vec<String> = items.into_iter().collect();
    if items.is_empty() {
        return none.to_string();
    }
    items.join(", ")
}

/// The words of a row of records `from` to `to`.
pub fn row(story: &Story, from: usize, to: usize) -> String {
    let on = |id: &WordId| word(story, *id);
    let who = |process: &u8| program(story, *process);
    match &story.moments[from].event {
        Event::Fed(id) => format!("{} is fed", on(id)),
        Event::Took { process, word } => format!("{} takes {}", who(process), on(word)),
        Event::Queued { process, word } => format!("{} sends {}", who(process), on(word)),
        Event::HeldBack { process, word } => format!("{} holds back {}", who(process), on(word)),
        Event::Calculated { process } => {
            let next = instruction(story, *process, &story.before(from).seats[usize::from(*process)]);
            format!("{}: {}", who(process), words::next(next))
        }
        Event::SyncIssued { process } => format!("a sync of {} joins the queue", who(process)),
        Event::ResyncIssued { process } => format!("a resync of {} joins the queue", who(process)),
        Event::Carried { word, .. } => match story.played.table.channels[usize::from(story.lives[*word].channel)].1 {
            End::Outside => format!("{} is carried to the outside", on(word)),
            End::Process(reader) => format!("{} is carried to {}", on(word), who(&reader)),
        },
        Event::SyncCarried { process, dropped, .. } => {
            let dropped = words::many(*dropped as usize, "saved word", "saved words");
            format!("the sync of {} lands, {dropped} dropped", who(process))
        }
        Event::SyncUnbacked { process, .. } => format!("the sync of {} finds no backup", who(process)),
        Event::ResyncCarried { process, .. } => format!("the resync of {} lands: a new backup", who(process)),
        Event::Crashed { board, lost, moved } => crashed(story, from, *board, lost, moved),
        Event::Returned { board } => format!("board {board} returns"),
        Event::TookBack(taken) => format!("back: record {} is taken back", taken + 1),
        Event::Refused => refused(story, from, to),
    }
}

/// Who goes on where, and what was lost.
fn crashed(story: &Story, record: usize, board: u8, lost: &[Entry], moved: &[u8]) -> String {
    let goes_on = |p: &u8| format!("{} goes on at {}", program(story, *p), place(story, record, *p));
    let moved = list(moved.iter().map(goes_on), "nothing ran there");
    let lost = list(lost.iter().map(|lost| entry(story, lost)), "nothing");
    format!("board {board} crashes; {moved}; lost: {lost}")
}

/// Where a process goes on after a record.
fn place(story: &Story, record: usize, process: u8) -> String {
    let end = &story.moments[record].scene.seats[usize::from(process)].end;
    let held = match end.hold_back {
        0 => String::new(),
        n => format!(", holding back {}", words::many(n.into(), "send", "sends")),
    };
    format!("board {}, place {}{held}", end.board, end.place)
}

fn refused(story: &Story, from: usize, to: usize) -> String {
    let times = if from == to { String::new() } else { format!(", {} times", to - from + 1) };
    let answer = story.played.ran.answers[from];
    format!("{}: refused {}, {}{times}", asked(story, from), answer.code.number(), answer.reason.words())
}

/// What a record asks for, with names where it speaks of a program or a channel that there is.
fn asked(story: &Story, record: usize) -> String {
    let Record { a, word, .. } = story.played.records[record];
    let (program, channels) = (|| program(story, a), story.played.table.channels.len());
    let there = usize::from(a) < story.start.seats.len() && word == 0;
    match story.played.kind(record) {
        Some(Move::Step) if there => format!("step {}", program()),
        Some(Move::Sync) if there => format!("sync {}", program()),
        Some(Move::Resync) if there => format!("resync {}", program()),
        Some(Move::Feed) if usize::from(a) < channels => format!("feed {word} on {}", channel(story, a)),
        _ => words::record(&story.played.records[record].bytes(), |_| None),
    }
}

/// What became of a word at a record.
pub fn stage(stage: Stage) -> &'static str {
    match stage {
        Stage::Fed => "fed",
        Stage::Queued => "sent: joins the queue",
        Stage::QueuedAgain => "sent again",
        Stage::Carried => "carried: on the bus",
        Stage::Printed => "carried to the outside: printed",
        Stage::Taken => "taken",
        Stage::TakenAgain => "taken again",
        Stage::HeldBack => "held back: it was on the bus before the crash",
        Stage::Lost => "lost with its board",
    }
}

/// A process after a record: where it runs and stands.
pub fn process(story: &Story, p: u8, seat: &Seat) -> String {
    words::process(p.into(), seat.end, instruction(story, p, seat))
}

/// The backup of a process, its saved words told by `list`.
pub fn backup(seat: &Seat, list: impl Fn(&[WordId]) -> String) -> String {
    match (&seat.backup, &seat.making) {
        (Some(backup), _) => {
            let carried = words::many(backup.counted.len(), "word", "words");
            format!("backup on board {}; saved: {}; since its state {carried} carried", backup.board, list(&backup.saved))
        }
        (None, Some(making)) => format!("a backup on board {} is being made; saved: {}", making.board, list(&making.saved)),
        (None, None) => "no backup".to_string(),
    }
}

/// A board after a record.
pub fn board(story: &Story, number: usize, board: &Board) -> String {
    match board.dead {
        true => format!("board {number} is dead"),
        false => format!("board {number}, queue: {}", list(board.queue.iter().map(|e| short_entry(story, e)), "empty")),
    }
}
