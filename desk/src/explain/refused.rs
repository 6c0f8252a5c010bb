//! What would help where a record is refused: what it waits for and where that is, by the whole cabinet before it.
use super::done::entry_words;
use super::Explaining;
use crate::words::{channels_of, list, many};
use kunzeastylus::{Answer, BackupState, Code, Entry, Operation, ProcessView, Record, View, LIMIT};

/// How many instructions ask for a sync.
const INSTRUCTIONS: u32 = 64;

/// A line for each thing, of a record that was refused.
pub fn helps(run: &Explaining, i: usize) -> Vec<String> {
    let answer = run.played.ran.answers[i];
    match known(answer.code) {
        true => why(run, &run.view(i), run.played.records[i], answer, run.operation(i)),
        false => Vec::new(),
    }
}

/// Whether there is more to say than the answer does.
fn known(code: Code) -> bool {
    !matches!(code, Code::BadRecord | Code::BadIndex | Code::Halted | Code::QueueEmpty | Code::BoardLive | Code::NoneKept)
}

/// The same of a record that is refused in this cabinet; of a step with its instruction.
pub fn why(run: &Explaining, view: &View, record: Record, answer: Answer, operation: Option<Operation>) -> Vec<String> {
    let a = u32::from(record.a);
    let process = || &view.processes()[a as usize];
    match answer.code {
        Code::BoardDead => vec![format!("return board {a} first")],
        Code::NoWord => operation.map_or(Vec::new(), |operation| awaited(run, view, process(), operation)),
        Code::OwesSync => vec![owes(run, view, a)],
        Code::QueueFull => {
            let board = process().board;
            vec![format!("the queue of board {board} has {} entries: carry board {board}", view.boards()[board as usize].waiting)]
        }
        Code::ChannelHeld => match operation {
            Some(Operation::Send { channel, .. }) => vec![held(run, view, channel.into())],
            _ => vec![held(run, view, a)],
        },
        Code::NoBackup => vec![unbacked(run, view, a)],
        Code::SyncWaiting => vec![waiting(run, view, a)],
        Code::NotFromOutside => match run.sender(a) {
            Some(p) => vec![format!("its words are sent by {}", run.spoken.process(p))],
            None => Vec::new(),
        },
        Code::SomeUnbacked => {
            let bare = view.processes().iter().zip(0u32..).filter(|(process, _)| process.backup.state() != BackupState::Complete);
            bare.map(|(_, p)| unbacked(run, view, p)).collect()
        }
        Code::NotReady => not_ready(run, view, a),
        Code::HasBackup => vec![match process().backup.state() {
            BackupState::None => format!("its other board is dead: return board {} first", run.other_board(process(), a)),
            _ => format!("it has its backup, on board {}", process().backup.board),
        }],
        _ => Vec::new(),
    }
}

/// Where the words are that a TAKE or FIRST waits for, in whose queue, or nowhere; and of which channels those are that it leaves unread.
fn awaited(run: &Explaining, view: &View, process: &ProcessView, operation: Operation) -> Vec<String> {
    let mut unread: Vec<u32> = process.inbox().iter().map(|word| word.channel).collect();
    unread.sort_unstable();
    unread.dedup();
    let unread: Vec<String> = unread.into_iter().map(|channel| run.spoken.channel(channel)).collect();
    let others = (!unread.is_empty()).then(|| format!("it leaves words of {} unread", list(&unread)));
    channels_of(reads(operation)).map(|channel| word_of(run, view, channel.into())).chain(others).collect()
}

fn word_of(run: &Explaining, view: &View, channel: u32) -> String {
    let name = run.spoken.channel(channel);
    let is = |entry: &Entry| matches!(entry, Entry::Word { channel: other, .. } if *other == channel);
    for (board, b) in view.boards().iter().zip(0u32..) {
        if let Some(ahead) = board.queue().position(|entry| is(&entry)) {
            let word = board.queue().nth(ahead).map(|entry| entry_words(run, entry)).unwrap_or_default();
            return format!("{word} is in the queue of board {b}: {}", carries(b, ahead));
        }
    }
    match run.sender(channel) {
        None => format!("no word of {name} is anywhere: feed {name}"),
        Some(p) => format!("no word of {name} is in a queue: {} sends it", run.spoken.process(p)),
    }
}

/// How an entry with so many ahead of it is carried.
fn carries(board: u32, ahead: usize) -> String {
    match ahead {
        0 => format!("carry board {board}"),
        _ => format!("carry board {board}, {} times", ahead + 1),
    }
}

/// Acts and instructions against their limits, and what makes them 0 again.
fn owes(run: &Explaining, view: &View, p: u32) -> String {
    let process = &view.processes()[p as usize];
    let limit = run.played.table.processes[p as usize].limit.unwrap_or(LIMIT);
    let done = format!("{} of {limit} acts and {} of {INSTRUCTIONS} instructions", process.acts, process.instructions);
    let sync = format!("sync {}", run.spoken.process(p));
    let help = match place_of(view, p) {
        Some((board, ahead)) => format!("{}, then {sync}", carries(board, ahead)),
        None => sync,
    };
    format!("{done} since its last sync: {help}")
}

/// In which queue a sync or a resync of a process waits, and behind how many entries.
fn place_of(view: &View, p: u32) -> Option<(u32, usize)> {
    let its = |entry: &Entry| matches!(entry, Entry::Sync { process, .. } | Entry::Resync { process } if *process == p);
    let found = |(board, b): (&kunzeastylus::BoardView, u32)| board.queue().position(|entry| its(&entry)).map(|ahead| (b, ahead));
    view.boards().iter().zip(0u32..).find_map(found)
}

fn waiting(run: &Explaining, view: &View, p: u32) -> String {
    match place_of(view, p) {
        Some((board, ahead)) => format!("it is in the queue of board {board}: {}", carries(board, ahead)),
        None => format!("none of {} is in a queue", run.spoken.process(p)),
    }
}

/// Where the words of a held channel are, and who has not read them.
fn held(run: &Explaining, view: &View, channel: u32) -> String {
    let mut where_they_are = Vec::new();
    let is = |entry: &Entry| matches!(entry, Entry::Word { channel: other, .. } if *other == channel);
    for (board, b) in view.boards().iter().zip(0u32..) {
        let queued = board.queue().filter(is).count();
        if queued > 0 {
            where_they_are.push(format!("{queued} in the queue of board {b}"));
        }
    }
    if let Some(reader) = run.reader(channel) {
        let unread = view.processes()[reader as usize].inbox().iter().filter(|word| word.channel == channel).count();
        if unread > 0 {
            let next =
                run.next(view, reader).map_or("has halted".to_string(), |next| format!("is at {}", run.spoken.instruction(next)));
            where_they_are.push(format!("{unread} not read by {}, which {next}", run.spoken.process(reader)));
        }
    }
    let total = many(view.totals()[channel as usize] as usize, "word", "words");
    format!("{} has {total}: {}", run.spoken.channel(channel), list(&where_they_are))
}

/// What gives a process its backup again.
pub fn unbacked(run: &Explaining, view: &View, p: u32) -> String {
    let (name, process) = (run.spoken.process(p), &view.processes()[p as usize]);
    let other = run.other_board(process, p);
    let waits = place_of(view, p).map(|(board, ahead)| (board, carries(board, ahead)));
    if let (BackupState::Making, Some((board, carry))) = (process.backup.state(), &waits) {
        return format!("{name} has no backup yet, its resync is in the queue of board {board}: {carry}");
    }
    let dead = view.boards()[other as usize].is_dead().then(|| format!("return board {other}"));
    let steps: Vec<String> =
        dead.into_iter().chain(waits.map(|(_, carry)| carry)).chain([format!("resync {name} and carry that")]).collect();
    format!("{name} has no backup: {}", steps.join(", then "))
}

/// Which of the two it is that a resync waits for, or both: hold-back, and channels with over 8 words.
fn not_ready(run: &Explaining, view: &View, p: u32) -> Vec<String> {
    let (name, hold_back) = (run.spoken.process(p), view.processes()[p as usize].hold_back);
    let sends = many(hold_back as usize, "send", "sends");
    let holds = (hold_back > 0).then(|| format!("{name} still holds back {sends}: step {name} until that is 0"));
    let over = run.slots(p).into_iter().map(u32::from).filter(|channel| view.totals()[*channel as usize] > 8);
    holds.into_iter().chain(over.map(|channel| format!("over 8 words: {}", held(run, view, channel)))).collect()
}

/// The channels of whose words an instruction takes one, as a mask.
fn reads(operation: Operation) -> u32 {
    match operation {
        Operation::Take { channel, .. } => 1 << channel,
        Operation::First { mask, .. } => mask,
        _ => 0,
    }
}
