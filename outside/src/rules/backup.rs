//! The backup record within the cabinet: document 01, "The backup record", of which a sound cabinet meets no refusal.

/// A word that has arrived, with the slot of its channel.
#[derive(Clone, Copy, Debug, PartialEq, Eq)]
pub struct Message {
    pub channel: u8,
    pub slot: u8,
    pub word: u32,
}

/// "a snapshot (registers, place, takes per slot since the last issue)"
#[derive(Clone, Copy, Debug, PartialEq, Eq)]
pub struct Snapshot {
    pub registers: [u32; 4],
    pub place: u8,
    pub taken: [u32; 4],
}

/// The backup record, and the board where it is kept.
#[derive(Clone, Debug, PartialEq, Eq)]
pub struct Backup {
    pub board: u8,
    pub saved: Vec<Message>,
    pub count: u8,
    pub place: u8,
    pub registers: [u32; 4],
}

impl Backup {
    /// "It starts with no words and the rest 0."
    pub fn new(board: u8) -> Backup {
        Backup { board, saved: Vec::new(), count: 0, place: 0, registers: [0; 4] }
    }

    /// "A sync replaces the state in the process's backup record, drops the oldest saved words slot by slot as taken, and zeroes the
    /// count." How many words it drops (W-202: "the total dropped").
    pub fn sync(&mut self, mut snapshot: Snapshot) -> u32 {
        let before = self.saved.len();
        self.saved.retain(|message| {
            let left = &mut snapshot.taken[message.slot as usize];
            let drops = *left > 0;
            *left -= drops as u32;
            !drops
        });
        debug_assert_eq!(snapshot.taken, [0; 4], "more taken than saved");
        self.place = snapshot.place;
        self.registers = snapshot.registers;
        self.count = 0;
        (before - self.saved.len()) as u32
    }
}
