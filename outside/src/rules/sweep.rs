//! Every place to pull a board: document 02, W-213.
use super::lent::Lent;
use super::reader::{judge_run, record};
use super::sample::crash;
use super::simulator::Cabinet;

/// What a sweep returns: a number, and how many runs "end quiet, how many end unquiet with some hold-back left, and how many end unquiet with
/// none".
#[derive(Clone, Copy, Debug, Default, PartialEq, Eq)]
pub struct Swept {
    pub number: u8,
    pub quiet: u64,
    pub held: u64,
    pub open: u64,
}

impl Swept {
    /// What the proved call returns for it.
    pub fn returned(self) -> u64 {
        self.number as u64 + (self.quiet << 16) + (self.held << 32) + (self.open << 48)
    }

    fn count(&mut self, cabinet: &Cabinet) {
        match (cabinet.quiet(), cabinet.processes.iter().any(|process| process.hold_back > 0)) {
            (true, _) => self.quiet += 1,
            (false, true) => self.held += 1,
            (false, false) => self.open += 1,
        }
    }
}

/// "the crash put at each of the n + 1 places of a schedule of n records, for each of the B boards". The cabinet at a place is the same for all
/// boards, and a record away from the next place's.
pub fn sweep(table: &[u8], schedule: &[u8]) -> Swept {
    // "the buffers' checks fall away"
    let (table, records) = match judge_run(table, schedule, Lent::all(usize::MAX)) {
        Ok(judged) => judged,
        Err(number) => return Swept { number, ..Swept::default() },
    };
    let records: Vec<_> = records.chunks_exact(6).map(record).collect();
    // "52, the schedule has a record of move 5, whatever its a and word, or over 500 records, after 10"; W-214: "The sweep of W-213 refuses
    // schedules with move 8 by 52."
    if records.len() > 500 || records.iter().any(|record| [5, 8].contains(&record.kind)) {
        return Swept { number: 52, ..Swept::default() };
    }
    let mut swept = Swept::default();
    let mut before = Cabinet::new(&table);
    for place in 0..=records.len() {
        for board in 0..table.boards {
            let mut cabinet = before.clone();
            assert_eq!(cabinet.answer(crash(board)).code, 0, "the crash put in is never refused");
            for &record in &records[place..] {
                cabinet.answer(record);
            }
            swept.count(&cabinet);
        }
        if let Some(&record) = records.get(place) {
            before.answer(record);
        }
    }
    assert_eq!(swept.quiet + swept.held + swept.open, (records.len() as u64 + 1) * table.boards as u64);
    swept
}
