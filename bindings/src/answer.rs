//! The answer to a record: document 01, "What each move replies"; why it is that one: document 02, W-206; and from where the word came that it
//! put on the bus: W-212.
use crate::numbers::worded;
use crate::table::End;

worded! {
    /// An answer's code: what was done (0 to 7), or why the record was refused (32 to 44, 48 to 50, 53).
    Code {
        Done = 0 => "done: a SET, ADD or JUMP, a sync or a resync issued, a crash, a return",
        Took = 1 => "took: a word left the inbox for a register",
        Queued = 2 => "queued: a word waits to be carried",
        HeldBack = 3 => "held back: a SEND whose word was on the bus before the crash; nothing is sent",
        OnTheBus = 4 => "a word on the bus, carried or fed",
        SyncCarried = 5 => "a sync was carried: the backup record has a newer state; or a resync was: the process has a backup again",
        SyncUnbacked = 6 => "a sync was carried, but the process has no backup any more",
        TakenBack = 7 => "a back: the last record not yet taken back, refused or not, is taken back; what was written for it stays and counts no longer",
        BadRecord = 32 => "no such move, or a word that should be 0 (all but a feed's); of a back, also an a that should be 0",
        BadIndex = 33 => "a is no process (step, sync, resync), board (carry, crash, return) or channel (feed) of this table; never of a back",
        BoardDead = 34 => "the board is dead: it crashed earlier",
        Halted = 35 => "the process has halted",
        NoWord = 36 => "TAKE or FIRST finds no such word",
        OwesSync = 37 => "the process has a backup and as many acts as its limit says (8 in a table of version 1), or 64 instructions, since its last sync: it owes one; likewise while a resync of it waits",
        QueueFull = 38 => "the queue of the process's board is full, 32 entries",
        ChannelHeld = 39 => "the channel is held: 8 words or more unread and in queues",
        NoBackup = 40 => "the process has no backup (any more, or not yet)",
        SyncWaiting = 41 => "a sync of the process waits in the queue already; for a resync, a sync or a resync does",
        QueueEmpty = 42 => "the board's queue is empty",
        NotFromOutside = 43 => "a feed of a channel whose sender is a process",
        SomeUnbacked = 44 => "some process has no backup, so a crash now could lose it",
        BoardLive = 48 => "a return of a board that is live",
        NotReady = 49 => "the process isn't ready for a resync: it has hold-back left, or a channel that it reads has more than 8 words unread and in queues",
        HasBackup = 50 => "the process has a backup, or its other table board is dead",
        NoneKept = 53 => "a back, and no record is kept to go back to: none was given, all that were kept are taken back, or the rest were pushed out",
    }
}

impl Code {
    /// A refused record changed nothing.
    pub fn refused(self) -> bool {
        self.number() >= 32
    }
}

worded! {
    /// Why an answer is what it is. The number is the byte in the list of reasons: the answer's code times 4, plus its cause.
    Reason {
        Calculated = 0 => "done: calculated",
        SyncIssued = 1 => "done: sync issued",
        BoardCrashed = 2 => "done: board crashed",
        ReturnedOrResync = 3 => "done: board returned or resync issued",
        Took = 4 => "took",
        Queued = 8 => "queued",
        HeldBack = 12 => "held back",
        Carried = 16 => "on the bus: carried",
        Fed = 17 => "on the bus: fed",
        SyncCarried = 20 => "sync carried",
        ResyncCarried = 23 => "resync carried, a new backup",
        SyncUnbacked = 24 => "sync carried, no backup left",
        TakenBack = 28 => "took back a record",
        NoSuchMove = 128 => "bad record: no such move",
        WordNotZero = 129 => "bad record: its word should be 0 (of a back, also its a)",
        NoSuchProcess = 132 => "not in this table: the process",
        NoSuchBoard = 133 => "not in this table: the board",
        NoSuchChannel = 134 => "not in this table: the channel",
        CarryOfDead = 136 => "board dead: nothing is carried from it",
        CrashOfDead = 137 => "board dead: it can't crash again",
        Halted = 140 => "halted",
        NoWordForTake = 144 => "no such word: for TAKE",
        NoWordForFirst = 145 => "no such word: for FIRST",
        OwesForActs = 148 => "owes a sync: acts at its limit",
        OwesForInstructions = 149 => "owes a sync: 64 instructions",
        QueueFullForSend = 152 => "queue full: for SEND",
        QueueFullForSync = 153 => "queue full: for a sync",
        QueueFullForResync = 155 => "queue full: for a resync",
        HeldForSend = 156 => "channel held: for SEND",
        HeldForFeed = 157 => "channel held: for a feed",
        NoBackup = 160 => "no backup",
        SyncWaiting = 164 => "a sync waits already",
        ResyncWaiting = 167 => "a sync or resync waits already: for a resync",
        QueueEmpty = 168 => "queue empty",
        NotFromOutside = 172 => "sender not the outside",
        SomeUnbacked = 176 => "some process has no backup",
        BoardLive = 192 => "board live: only a dead one returns",
        NotReady = 196 => "not ready: hold-back, or over 8 words on a channel",
        HasBackup = 200 => "has a backup, or its other board is dead",
        NoneKept = 212 => "no record is kept to go back to",
    }
}

impl Reason {
    /// The code of an answer with this reason.
    pub fn code(self) -> Code {
        Code::try_from(self.number() / 4).expect("a reason is of some code")
    }

    /// What tells it from the other reasons for this code: 0 to 3.
    pub fn cause(self) -> u8 {
        self.number() % 4
    }
}

/// A word on the bus: two runs are equal where these agree, one by one.
#[derive(Clone, Copy, Debug, PartialEq, Eq, Hash)]
pub struct BusWord {
    pub channel: u8,
    pub word: u32,
    /// The process whose SEND it was, or the outside where it was fed.
    pub sender: End,
    /// The place of that SEND in the sender's program; 0 where it was fed.
    pub place: u8,
}

/// "One six-byte answer a record: code, a, word", why it is that one from the list of reasons, and the word that the record put on the bus, if it did.
#[derive(Clone, Copy, Debug, PartialEq, Eq, Hash)]
pub struct Answer {
    pub code: Code,
    pub a: u8,
    pub word: u32,
    pub reason: Reason,
    pub bus: Option<BusWord>,
}

impl Answer {
    /// The answer that six bytes stand for, one byte of reasons and two of origins.
    pub(crate) fn of(bytes: &[u8], reason: u8, origin: &[u8]) -> Answer {
        let code = Code::try_from(bytes[0]).expect("a run writes document 01's codes alone");
        let reason = Reason::try_from(reason).expect("a run writes document 02's reasons alone");
        let (a, word) = (bytes[1], word(&bytes[2..6]));
        let on_the_bus = || BusWord { channel: a, word, sender: End::from(origin[0]), place: origin[1] };
        Answer { code, a, word, reason, bus: (code == Code::OnTheBus).then(on_the_bus) }
    }
}

/// Four bytes, big-endian.
pub(crate) fn word(bytes: &[u8]) -> u32 {
    u32::from_be_bytes([bytes[0], bytes[1], bytes[2], bytes[3]])
}
