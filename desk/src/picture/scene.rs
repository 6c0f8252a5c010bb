//! The cabinet at one moment of a run, as it is drawn: where each process runs and stands, which words are unread, saved and in queues.
//! Words are named by their number, so that one can be followed from queue to inbox.
//!
//! All of it follows from the answers, and is held against the report of the run up to there at every crash and at the end, where each
//! process must be as the report says: a word on the bus joins its reader's inbox and backup, a take removes the oldest of its channel, a
//! step moves the place as its instruction says, a carried sync drops what was taken before it was issued, and a crash makes the saved
//! words the inbox and the counted ones those to be held back. Where a process goes on after a crash, the report says.
use kunzeastylus::{End, ProcessEnd, Table};

/// A word by its number: its place in `Story::lives`.
pub type WordId = usize;

/// An entry of a queue.
#[derive(Clone, Debug, PartialEq, Eq)]
pub enum Entry {
    Word(WordId),
    /// With the channels that were taken from since the sync before it was issued.
    Sync {
        process: u8,
        taken: Vec<u8>,
    },
    Resync {
        process: u8,
    },
}

/// A backup: where it is, which words it has saved, and which words of the process it has counted.
#[derive(Clone, Debug, Default, PartialEq, Eq)]
pub struct Standby {
    pub board: u8,
    pub saved: Vec<WordId>,
    pub counted: Vec<WordId>,
}

#[derive(Clone, Debug, PartialEq, Eq)]
pub struct Seat {
    /// Its line of a report.
    pub end: ProcessEnd,
    pub unread: Vec<WordId>,
    pub backup: Option<Standby>,
    /// The backup that a resync makes, until it is carried.
    pub making: Option<Standby>,
    /// The channels that it has taken from since its last sync or resync was issued.
    pub taken: Vec<u8>,
    /// The words that it will hold back, and those that were lost in a queue and will be sent again.
    pub held: Vec<WordId>,
    pub lost: Vec<WordId>,
}

#[derive(Clone, Debug, Default, PartialEq, Eq)]
pub struct Board {
    pub dead: bool,
    pub queue: Vec<Entry>,
}

#[derive(Clone, Debug, PartialEq, Eq)]
pub struct Scene {
    pub seats: Vec<Seat>,
    pub boards: Vec<Board>,
}

impl Scene {
    /// "It starts from the cabinet that the table gives".
    pub fn start(table: &Table) -> Scene {
        let seat = |process: &kunzeastylus::Process| Seat {
            end: ProcessEnd { board: process.primary, place: 0, unread: 0, hold_back: 0, registers: [0; 4] },
            unread: Vec::new(),
            backup: Some(Standby { board: process.backup, ..Standby::default() }),
            making: None,
            taken: Vec::new(),
            held: Vec::new(),
            lost: Vec::new(),
        };
        Scene { seats: table.processes.iter().map(seat).collect(), boards: vec![Board::default(); usize::from(table.boards)] }
    }

    /// How much is unread and held back, as a report would say it.
    pub fn settle(&mut self) {
        for seat in &mut self.seats {
            (seat.end.unread, seat.end.hold_back) = (seat.unread.len() as u8, seat.held.len() as u8);
        }
    }

    /// The report after a crash, or at the end: where each process runs and stands. What was followed must fit it.
    pub fn reported(&mut self, report: &[ProcessEnd], crash: bool) {
        for (seat, &end) in self.seats.iter_mut().zip(report) {
            if crash {
                (seat.end.board, seat.end.place, seat.end.registers) = (end.board, end.place, end.registers);
            }
            assert_eq!(seat.end, end, "a fault of this program: it followed the run elsewhere");
        }
    }

    /// A word is on the bus: to its reader's inbox and backup.
    pub fn arrive(&mut self, reader: End, word: WordId) {
        let End::Process(reader) = reader else { return };
        let seat = &mut self.seats[usize::from(reader)];
        seat.unread.push(word);
        seat.backup.iter_mut().chain(&mut seat.making).for_each(|backup| backup.saved.push(word));
    }

    /// The oldest entry of a board's queue leaves it.
    pub fn carry(&mut self, board: u8) -> Entry {
        self.boards[usize::from(board)].queue.remove(0)
    }

    /// An entry joins the queue of the board that a process runs on.
    pub fn queue(&mut self, process: u8, entry: Entry) {
        let board = self.seats[usize::from(process)].end.board;
        self.boards[usize::from(board)].queue.push(entry);
    }

    /// A sync lands: of each channel the oldest saved words go, as many as were taken. False where there is no backup.
    pub fn sync(&mut self, process: u8, taken: &[u8], channel_of: impl Fn(WordId) -> u8) -> bool {
        let Some(backup) = &mut self.seats[usize::from(process)].backup else { return false };
        for &channel in taken {
            let at = backup.saved.iter().position(|&word| channel_of(word) == channel).expect("a word that was taken was saved");
            backup.saved.remove(at);
        }
        backup.counted.clear();
        true
    }

    /// A board fails: what was in its queue, and which processes moved. Those with a half there have no backup any more.
    pub fn crash(&mut self, board: u8) -> (Vec<Entry>, Vec<u8>) {
        let failed = &mut self.boards[usize::from(board)];
        failed.dead = true;
        let lost = std::mem::take(&mut failed.queue);
        let mut moved = Vec::new();
        for (p, seat) in (0..).zip(&mut self.seats) {
            let there = seat.backup.as_ref().is_some_and(|backup| backup.board == board);
            if seat.end.board == board {
                let backup = seat.backup.take().expect("a crash that is done finds a backup of every process");
                (seat.unread, seat.held) = (backup.saved, backup.counted);
                seat.taken.clear();
                moved.push(p);
            } else if there {
                seat.backup = None;
            }
        }
        (lost, moved)
    }
}
