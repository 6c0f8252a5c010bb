//! The whole cabinet after a run, with a name for each of its numbers: inboxes, saved words, queues, totals, dead boards.
use crate::calls;
use crate::refusal::Refusal;

/// How many numbers of 32 bits a view has.
pub const VIEW: usize = std::mem::size_of::<View>() / 4;

/// Unread words of a process at most, and saved words of a backup.
pub const WORDS_MOST: usize = 64;

/// Entries of a board's queue at most.
pub const QUEUE_MOST: usize = 32;

/// The whole cabinet. Lists are oldest first, with zeros behind their last; what the table doesn't have is 0. The methods leave both out.
#[derive(Clone, Debug, PartialEq, Eq, Hash)]
#[repr(C)]
pub struct View {
    /// How many boards the table has, how many processes, and how many channels.
    pub boards: u32,
    pub processes: u32,
    pub channels: u32,
    pub process: [ProcessView; 16],
    pub board: [BoardView; 16],
    /// Of each channel: its unread words and its words in queues together.
    pub total: [u32; 32],
}

/// A process, with its inbox and its backup.
#[derive(Clone, Copy, Debug, PartialEq, Eq, Hash)]
#[repr(C)]
pub struct ProcessView {
    /// The board it runs on.
    pub board: u32,
    pub place: u32,
    pub registers: [u32; 4],
    pub hold_back: u32,
    /// Takes and queued sends since its last sync or resync was issued.
    pub acts: u32,
    /// Instructions done since then.
    pub instructions: u32,
    /// Takes of each slot since then.
    pub takes: [u32; 4],
    /// How many words its inbox has.
    pub unread: u32,
    pub inbox: [UnreadWord; WORDS_MOST],
    pub backup: BackupView,
}

/// A word of an inbox.
#[derive(Clone, Copy, Debug, Default, PartialEq, Eq, Hash)]
#[repr(C)]
pub struct UnreadWord {
    pub channel: u32,
    pub word: u32,
}

/// A word of a backup, with its slot of the process.
#[derive(Clone, Copy, Debug, Default, PartialEq, Eq, Hash)]
#[repr(C)]
pub struct SavedWord {
    pub slot: u32,
    pub word: u32,
}

/// A backup; all 0 where there is none.
#[derive(Clone, Copy, Debug, PartialEq, Eq, Hash)]
#[repr(C)]
pub struct BackupView {
    /// 0 none, 1 complete, 2 being made: from a resync's issue until its carry.
    pub state: u32,
    pub board: u32,
    pub place: u32,
    pub registers: [u32; 4],
    /// How many words of the process were carried since this state.
    pub count: u32,
    /// How many words are saved.
    pub saved: u32,
    pub words: [SavedWord; WORDS_MOST],
}

/// What a backup is.
#[derive(Clone, Copy, Debug, PartialEq, Eq, Hash)]
pub enum BackupState {
    None,
    Complete,
    /// From a resync's issue until its carry.
    Making,
}

/// A board, with its queue.
#[derive(Clone, Copy, Debug, PartialEq, Eq, Hash)]
#[repr(C)]
pub struct BoardView {
    /// 1, or 0 where it is live.
    pub dead: u32,
    /// How many entries its queue has.
    pub waiting: u32,
    pub queue: [EntryView; QUEUE_MOST],
}

/// An entry of a queue; what its kind doesn't have is 0. [`EntryView::entry`] has only what it has.
#[derive(Clone, Copy, Debug, Default, PartialEq, Eq, Hash)]
#[repr(C)]
pub struct EntryView {
    /// 0 no entry, 1 a word, 2 a sync, 3 a resync.
    pub kind: u32,
    /// Of a word.
    pub channel: u32,
    pub word: u32,
    /// Of a sync or a resync.
    pub process: u32,
    /// Of a word that of its SEND, of a sync the snapshot's.
    pub place: u32,
    /// Of a sync.
    pub registers: [u32; 4],
    pub takes: [u32; 4],
}

/// An entry of a queue, by its kind.
#[derive(Clone, Copy, Debug, PartialEq, Eq, Hash)]
pub enum Entry {
    /// `place` is that of its SEND.
    Word { channel: u32, word: u32, place: u32 },
    /// With the snapshot.
    Sync { process: u32, place: u32, registers: [u32; 4], takes: [u32; 4] },
    /// Its snapshot and copies stand in the backup that is being made.
    Resync { process: u32 },
}

/// The whole cabinet as it is after a run. Refused as the run would be, but for its buffers.
pub fn view(table: &[u8], schedule: &[u8]) -> Result<Box<View>, Refusal> {
    let mut view = Box::new(View::NONE);
    let number = calls::ks_view(table, schedule, calls::numbers_of(&mut view));
    Refusal::or(u64::from(number), || view)
}

impl View {
    /// All zeros: of no table.
    const NONE: View = View {
        boards: 0,
        processes: 0,
        channels: 0,
        process: [ProcessView::NONE; 16],
        board: [BoardView::NONE; 16],
        total: [0; 32],
    };

    /// The processes that the table has.
    pub fn processes(&self) -> &[ProcessView] {
        first(&self.process, self.processes)
    }

    /// The boards that the table has.
    pub fn boards(&self) -> &[BoardView] {
        first(&self.board, self.boards)
    }

    /// The totals of the channels that the table has.
    pub fn totals(&self) -> &[u32] {
        first(&self.total, self.channels)
    }
}

impl ProcessView {
    const NONE: ProcessView = ProcessView {
        board: 0,
        place: 0,
        registers: [0; 4],
        hold_back: 0,
        acts: 0,
        instructions: 0,
        takes: [0; 4],
        unread: 0,
        inbox: [UnreadWord { channel: 0, word: 0 }; WORDS_MOST],
        backup: BackupView::NONE,
    };

    /// The unread words, oldest first.
    pub fn inbox(&self) -> &[UnreadWord] {
        first(&self.inbox, self.unread)
    }
}

impl BackupView {
    const NONE: BackupView = BackupView {
        state: 0,
        board: 0,
        place: 0,
        registers: [0; 4],
        count: 0,
        saved: 0,
        words: [SavedWord { slot: 0, word: 0 }; WORDS_MOST],
    };

    pub fn state(&self) -> BackupState {
        match self.state {
            0 => BackupState::None,
            1 => BackupState::Complete,
            _ => BackupState::Making,
        }
    }

    /// The saved words, oldest first.
    pub fn words(&self) -> &[SavedWord] {
        first(&self.words, self.saved)
    }
}

impl BoardView {
    const NONE: BoardView = BoardView { dead: 0, waiting: 0, queue: [EntryView::NONE; QUEUE_MOST] };

    pub fn is_dead(&self) -> bool {
        self.dead != 0
    }

    /// The queue's entries, oldest first.
    pub fn queue(&self) -> impl ExactSizeIterator<Item = Entry> + '_ {
        first(&self.queue, self.waiting).iter().map(|entry| entry.entry())
    }
}

impl EntryView {
    const NONE: EntryView = EntryView { kind: 0, channel: 0, word: 0, process: 0, place: 0, registers: [0; 4], takes: [0; 4] };

    /// By its kind, of an entry that there is.
    pub fn entry(&self) -> Entry {
        let EntryView { kind, channel, word, process, place, registers, takes } = *self;
        match kind {
            1 => Entry::Word { channel, word, place },
            2 => Entry::Sync { process, place, registers, takes },
            _ => Entry::Resync { process },
        }
    }
}

fn first<T>(list: &[T], count: u32) -> &[T] {
    &list[..list.len().min(count as usize)]
}

#[cfg(test)]
mod tests {
    use super::{BoardView, EntryView, ProcessView, View, VIEW};
    use std::mem::{offset_of, size_of};

    #[test]
    fn the_layout_is_that_of_the_formats() {
        assert_eq!(VIEW, 11_187);
        assert_eq!([size_of::<ProcessView>(), size_of::<BoardView>(), size_of::<EntryView>()], [4 * 279, 4 * 418, 4 * 13]);
        assert_eq!([offset_of!(View, process), offset_of!(View, board), offset_of!(View, total)], [4 * 3, 4 * 4_467, 4 * 11_155]);
        assert_eq!([offset_of!(ProcessView, inbox), offset_of!(ProcessView, backup)], [4 * 14, 4 * 142]);
    }
}
