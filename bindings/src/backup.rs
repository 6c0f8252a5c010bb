//! The backup record: document 01, "The backup record".
use crate::calls;
use crate::numbers::refusals;

/// Saved words at most; and how many numbers a head has: how many words are saved, count, place, four registers.
pub const SAVED: usize = 64;
pub const HEAD: usize = 7;

/// How many numbers a sync reports: for each slot the words dropped, and then for each those that remain.
pub(crate) const SYNC_REPORT: usize = 8;

refusals! {
    /// Why a call of the record is refused. The record is then as it was.
    BackupRefusal {
        Unfit = 20 => "the record was unfit before the call: over 64 words, a slot over 3, a count over 32, a place over 64",
        Bad = 21 => "arrive: slot over 3; sync: place over 64",
        Full = 22 => "64 words are saved",
        Taken = 23 => "more taken on a slot than there are saved words on it",
        Count = 24 => "the count is 32",
    }
}

/// What a sync brings: the state at its issue, and how many words were taken on each slot since the last.
#[derive(Clone, Copy, Debug, Default, PartialEq, Eq, Hash)]
pub struct Snapshot {
    pub place: u32,
    pub registers: [u32; 4],
    pub taken: [u32; 4],
}

/// What a sync did to the saved words, for each slot: how many were dropped, and how many remain.
#[derive(Clone, Copy, Debug, Default, PartialEq, Eq, Hash)]
pub struct Synced {
    pub dropped: [u32; 4],
    pub remain: [u32; 4],
}

/// A backup record. It may be unfit when made from any numbers; every call then says so.
#[derive(Clone, Copy, Debug)]
pub struct Backup {
    saved: [u64; SAVED],
    head: [u32; HEAD],
}

impl Default for Backup {
    fn default() -> Backup {
        Backup::new()
    }
}

/// Two records are the same where their heads and their saved words are, whatever lies behind those.
impl PartialEq for Backup {
    fn eq(&self, other: &Backup) -> bool {
        self.head == other.head && self.words().eq(other.words())
    }
}

impl Eq for Backup {}

impl Backup {
    /// As it starts: no words, and the rest 0.
    pub fn new() -> Backup {
        let mut backup = Backup { saved: [0; SAVED], head: [0; HEAD] };
        calls::ks_backup_new(&mut backup.head);
        backup
    }

    /// Any numbers as a record: the saved words, each slot times 2^32 plus word, and the head.
    pub fn from_numbers(saved: [u64; SAVED], head: [u32; HEAD]) -> Backup {
        Backup { saved, head }
    }

    pub fn saved(&self) -> &[u64; SAVED] {
        &self.saved
    }

    pub fn head(&self) -> &[u32; HEAD] {
        &self.head
    }

    /// The saved words with their slots, oldest first; 64 at most are there to be shown.
    pub fn words(&self) -> impl Iterator<Item = (u32, u32)> + '_ {
        self.saved.iter().take(self.head[0] as usize).map(|&saved| ((saved >> 32) as u32, saved as u32))
    }

    pub fn count(&self) -> u32 {
        self.head[1]
    }

    pub fn place(&self) -> u32 {
        self.head[2]
    }

    pub fn registers(&self) -> [u32; 4] {
        [3, 4, 5, 6].map(|at| self.head[at])
    }

    /// A word arrives on a slot and is saved.
    pub fn arrive(&mut self, slot: u32, word: u32) -> Result<(), BackupRefusal> {
        replied(calls::ks_backup_arrive(&mut self.saved, &mut self.head, slot, word))
    }

    /// A word of the process was carried.
    pub fn count_one(&mut self) -> Result<(), BackupRefusal> {
        replied(calls::ks_backup_count(&self.saved, &mut self.head))
    }

    /// A sync is carried.
    pub fn sync(&mut self, snapshot: &Snapshot) -> Result<Synced, BackupRefusal> {
        let Snapshot { place, registers, taken } = snapshot;
        let mut report = [0; SYNC_REPORT];
        replied(calls::ks_backup_sync(&mut self.saved, &mut self.head, *place, registers, taken, &mut report))?;
        let [d0, d1, d2, d3, r0, r1, r2, r3] = report;
        Ok(Synced { dropped: [d0, d1, d2, d3], remain: [r0, r1, r2, r3] })
    }

    /// Takes over: words, place, registers and count, as a record. This one stays as it is.
    pub fn take_over(&self) -> Result<Backup, BackupRefusal> {
        let mut head = [0; HEAD];
        replied(calls::ks_backup_take_over(&self.saved, &self.head, &mut head))?;
        Ok(Backup { saved: self.saved, head })
    }
}

/// 0, or the refusal of a number.
fn replied(number: u32) -> Result<(), BackupRefusal> {
    match number {
        0 => Ok(()),
        _ => Err(BackupRefusal::try_from(number as u8).expect("the record's numbers are 20 to 24")),
    }
}
