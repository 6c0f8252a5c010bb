//! What a record did that its answer doesn't say: the whole cabinet behind it held against that before it.
use super::Explaining;
use crate::words::{holds, list, many};
use kunzeastylus::{BackupState, BackupView, BoardView, Entry, Move, ProcessView, Reason, View};

/// A line for each thing, of a record that was done.
pub fn did(run: &Explaining, i: usize) -> Vec<String> {
    let (record, answer) = (run.played.records[i], run.played.ran.answers[i]);
    let board = usize::from(record.a);
    let views = || (run.view(i), run.view(i + 1));
    match answer.reason {
        Reason::BoardCrashed => {
            let (before, after) = views();
            crash(run, board, &before, &after)
        }
        Reason::Carried => {
            let (before, after) = views();
            vec![carried(run, i, &before, &after)]
        }
        Reason::SyncCarried => {
            let (before, after) = views();
            vec![synced(run, answer.a, &before, &after)]
        }
        Reason::ResyncCarried => {
            let after = run.view(i + 1);
            let backup = &after.processes()[usize::from(answer.a)].backup;
            vec![format!("its backup is on board {} again: {}", backup.board, state(run, answer.a.into(), backup))]
        }
        Reason::ReturnedOrResync if record.kind() == Some(Move::Return) => returned(run, record.a, &run.view(i + 1)),
        Reason::ReturnedOrResync => vec![resync(&run.view(i + 1), board)],
        _ => Vec::new(),
    }
}

/// Who moved where, what was lost, and who has no backup now.
fn crash(run: &Explaining, board: usize, before: &View, after: &View) -> Vec<String> {
    let each = || before.processes().iter().zip(after.processes()).zip(0u32..);
    let moved = each().filter(|((was, _), _)| was.board as usize == board).map(|((_, is), p)| {
        let ProcessView { board, place, unread, hold_back, .. } = is;
        let unread = many(*unread as usize, "word", "words");
        format!(
            "{} goes on at board {board}, place {place}, with {unread} unread; it {}",
            run.spoken.process(p),
            holds(*hold_back)
        )
    });
    let mut lines: Vec<String> = moved.collect();
    if lines.is_empty() {
        lines.push("nothing ran there".to_string());
    }
    lines.push(match before.boards()[board].waiting {
        0 => "its queue was empty: nothing is lost".to_string(),
        _ => format!("lost with its queue: {}", queue(run, &before.boards()[board])),
    });
    let backed = |process: &ProcessView| process.backup.state() == BackupState::Complete;
    let bare = each().filter(|((was, is), _)| backed(was) && !backed(is)).map(|(_, p)| run.spoken.process(p));
    let bare: Vec<String> = bare.collect();
    lines.push(match bare.is_empty() {
        true => "everybody still has a backup".to_string(),
        false => format!("no backup now: {}", list(&bare)),
    });
    lines
}

/// The entries of a queue, oldest first; equal ones in a row once, with how many they are.
pub fn queue(run: &Explaining, board: &BoardView) -> String {
    let mut entries: Vec<(Entry, usize)> = Vec::new();
    for entry in board.queue() {
        match entries.last_mut() {
            Some((last, count)) if *last == entry => *count += 1,
            _ => entries.push((entry, 1)),
        }
    }
    let words = entries.into_iter().map(|(entry, count)| match count {
        1 => entry_words(run, entry),
        _ => format!("{} ({count} times)", entry_words(run, entry)),
    });
    list(&words.collect::<Vec<_>>())
}

/// An entry of a queue.
pub fn entry_words(run: &Explaining, entry: Entry) -> String {
    match entry {
        Entry::Word { channel, word, place } => {
            let sender =
                run.sender(channel).map_or(String::new(), |p| format!(" from {} at place {place}", run.spoken.process(p)));
            format!("word {word} on {}{sender}", run.spoken.channel(channel))
        }
        Entry::Sync { process, place, .. } => format!("a sync of {} at place {place}", run.spoken.process(process)),
        Entry::Resync { process } => format!("a resync of {}", run.spoken.process(process)),
    }
}

/// Who got a carried word: its reader, the reader's backup, and the sender's.
fn carried(run: &Explaining, i: usize, before: &View, after: &View) -> String {
    let channel = u32::from(run.played.ran.answers[i].a);
    let both = |p: u32| (&before.processes()[p as usize].backup, &after.processes()[p as usize].backup);
    let to = match run.reader(channel) {
        None => "to the outside".to_string(),
        Some(p) => {
            let (was, is) = both(p);
            let saved =
                if is.saved > was.saved { format!(" and {}", backup_of(is)) } else { ", which has no backup".to_string() };
            format!("to {}{saved}", run.spoken.process(p))
        }
    };
    let counted = run.sender(channel).map(|p| {
        let ((was, is), sender) = (both(p), run.spoken.process(p));
        match is.count > was.count {
            true => format!("; counted by {sender}'s backup on board {}: {}", is.board, is.count),
            false => format!("; {sender} has no backup to count it"),
        }
    });
    to + &counted.unwrap_or_default()
}

fn backup_of(backup: &BackupView) -> String {
    match backup.state() {
        BackupState::Making => format!("the backup that its resync makes on board {}", backup.board),
        _ => format!("its backup on board {}", backup.board),
    }
}

/// What a sync dropped of each channel, and where the backup is now.
fn synced(run: &Explaining, p: u8, before: &View, after: &View) -> String {
    let backup = |view: &View| view.processes()[usize::from(p)].backup;
    let (was, is) = (backup(before), backup(after));
    let of = |backup: &BackupView, slot: u32| -> Vec<u32> {
        backup.words().iter().filter(|word| word.slot == slot).map(|word| word.word).collect()
    };
    let dropped = run.slots(p.into()).into_iter().zip(0u32..).filter_map(|(channel, slot)| {
        let words = of(&was, slot);
        let gone = words.len() - of(&is, slot).len();
        (gone > 0).then(|| format!("{} of {}", numbers(&words[..gone]), run.spoken.channel(channel)))
    });
    let dropped: Vec<String> = dropped.collect();
    let dropped = if dropped.is_empty() { String::new() } else { format!("dropped {}; ", list(&dropped)) };
    format!("{dropped}its backup on board {}: {}", is.board, state(run, p.into(), &is))
}

fn returned(run: &Explaining, board: u8, after: &View) -> Vec<String> {
    let other = |p: usize| {
        let process = &run.played.table.processes[p];
        let board = u32::from(board);
        after.processes()[p].board != board && (u32::from(process.primary) == board || u32::from(process.backup) == board)
    };
    let bare = (0..after.processes().len()).filter(|p| other(*p) && after.processes()[*p].backup.state() == BackupState::None);
    let bare: Vec<String> = bare.map(|p| run.spoken.process(p as u32)).collect();
    match bare.is_empty() {
        true => Vec::new(),
        false => vec![format!("a resync gives {} a backup here", list(&bare))],
    }
}

fn resync(after: &View, p: usize) -> String {
    let process = &after.processes()[p];
    let copies = many(process.backup.saved as usize, "unread word", "unread words");
    format!(
        "waits in the queue of board {}, with copies of {copies}, for a backup on board {}",
        process.board, process.backup.board
    )
}

/// The state that a backup has.
pub fn state(run: &Explaining, p: u32, backup: &BackupView) -> String {
    let [r0, r1, r2, r3] = backup.registers;
    let slots = run.slots(p);
    let saved = many(backup.words().len(), "saved word", "saved words");
    let words: Vec<(u8, u32)> = backup.words().iter().map(|word| (slots[word.slot as usize], word.word)).collect();
    let each = if words.is_empty() { String::new() } else { format!(" ({})", by_channel(run, &words)) };
    format!("place {}, registers {r0} {r1} {r2} {r3}, {saved}{each}", backup.place)
}

/// Words in the order of their channels.
pub fn by_channel(run: &Explaining, words: &[(u8, u32)]) -> String {
    let mut channels: Vec<u8> = words.iter().map(|(channel, _)| *channel).collect();
    channels.sort_unstable();
    channels.dedup();
    let of = |channel: u8| -> Vec<u32> { words.iter().filter(|(other, _)| *other == channel).map(|(_, word)| *word).collect() };
    channels
        .into_iter()
        .map(|channel| format!("{}: {}", run.spoken.channel(channel), numbers(&of(channel))))
        .collect::<Vec<_>>()
        .join("; ")
}

/// Words as numbers in a row.
fn numbers(words: &[u32]) -> String {
    words.iter().map(u32::to_string).collect::<Vec<_>>().join(" ")
}
