//! A schedule's records and a table's instruction codes, as numbers and as bytes.
use crate::buffers::Lengths;
use crate::numbers::numbers;
use crate::refusal::Refusal;
use crate::run::judge;

/// A channel's end that is no process.
pub const OUTSIDE: u8 = 255;

/// A sound table: two boards, and a process with no instructions that reads a channel from the outside.
const ANY_TABLE: [u8; 11] = [0, 9, 1, 2, 1, 1, OUTSIDE, 0, 0, 1, 0];

numbers! {
    /// The moves.
    Move {
        /// One instruction of a process.
        Step = 1,
        /// A snapshot of a process joins its board's queue.
        Sync = 2,
        /// The oldest entry of a board's queue leaves.
        Carry = 3,
        /// A word from the outside on a channel.
        Feed = 4,
        /// A board is pulled.
        Crash = 5,
        /// A repaired board comes back, with an empty queue.
        Return = 6,
        /// A process gets a backup again: its snapshot and copies of its unread words join its board's queue.
        Resync = 7,
        /// The last record not yet taken back, refused or not, is taken back: the cabinet is as it was before it. 64 records are kept for that.
        Back = 8,
    }
}

numbers! {
    /// The codes of a table's instructions.
    Instruction {
        Set = 1,
        Add = 2,
        Take = 3,
        First = 4,
        Send = 5,
        Jump = 6,
    }
}

/// One record of a schedule: its move's code; a process for steps, syncs and resyncs, a board for carries, crashes and returns, a channel for
/// feeds, 0 for a back; and a feed's word. Any six bytes are a record, if only one that is answered with 32.
#[derive(Clone, Copy, Debug, PartialEq, Eq, Hash)]
pub struct Record {
    pub code: u8,
    pub a: u8,
    pub word: u32,
}

impl Record {
    pub fn new(kind: Move, a: u8, word: u32) -> Record {
        Record { code: kind.number(), a, word }
    }

    pub fn step(process: u8) -> Record {
        Record::new(Move::Step, process, 0)
    }

    pub fn sync(process: u8) -> Record {
        Record::new(Move::Sync, process, 0)
    }

    pub fn carry(board: u8) -> Record {
        Record::new(Move::Carry, board, 0)
    }

    pub fn feed(channel: u8, word: u32) -> Record {
        Record::new(Move::Feed, channel, word)
    }

    pub fn crash(board: u8) -> Record {
        Record::new(Move::Crash, board, 0)
    }

    pub fn return_board(board: u8) -> Record {
        Record::new(Move::Return, board, 0)
    }

    pub fn resync(process: u8) -> Record {
        Record::new(Move::Resync, process, 0)
    }

    pub fn back() -> Record {
        Record::new(Move::Back, 0, 0)
    }

    /// Its move, if there is one with its code.
    pub fn kind(self) -> Option<Move> {
        Move::try_from(self.code).ok()
    }

    /// Its six bytes.
    pub fn bytes(self) -> [u8; 6] {
        let [w0, w1, w2, w3] = self.word.to_be_bytes();
        [self.code, self.a, w0, w1, w2, w3]
    }

    /// A schedule of these records. Over 10,000 of them are refused by a run, with 9.
    pub fn schedule(records: &[Record]) -> Vec<u8> {
        // A length that doesn't fit its field is not the true one either way.
        let length = (1 + 6 * records.len()).min(65_535) as u16;
        let mut bytes = length.to_be_bytes().to_vec();
        bytes.push(1);
        bytes.extend(records.iter().flat_map(|record| record.bytes()));
        bytes
    }

    /// The records of a schedule, or 9 or 10 where it is none, as a run on any sound table would say.
    pub fn read(schedule: &[u8]) -> Result<Vec<Record>, Refusal> {
        judge(&ANY_TABLE, schedule, Lengths::ENOUGH).map(|()| records(schedule).collect())
    }
}

impl From<[u8; 6]> for Record {
    fn from([code, a, w0, w1, w2, w3]: [u8; 6]) -> Record {
        Record { code, a, word: u32::from_be_bytes([w0, w1, w2, w3]) }
    }
}

/// The records of an accepted schedule.
pub(crate) fn records(schedule: &[u8]) -> impl Iterator<Item = Record> + '_ {
    let (records, _) = schedule[3..].as_chunks();
    records.iter().map(|&bytes: &[u8; 6]| bytes.into())
}
