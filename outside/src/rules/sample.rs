//! Document 01's sample table and schedule.
use super::reader::Record;

/// "Sample table, hex"
pub const SAMPLE: [u8; 37] = [
    0x00, 0x23, 0x01, 0x02, 0x01, 0x02, 0xFF, 0x00, 0x00, 0xFF, 0x00, 0x01, 0x04, 0x03, 0x00, 0x00, 0x00, 0x00, 0x00, 0x02, 0x01,
    0x00, 0x00, 0x00, 0x00, 0x05, 0x01, 0x00, 0x00, 0x00, 0x01, 0x06, 0x00, 0x00, 0x00, 0x00, 0x00,
];

pub fn step(a: u8) -> Record {
    Record { kind: 1, a, word: 0 }
}

pub fn sync(a: u8) -> Record {
    Record { kind: 2, a, word: 0 }
}

pub fn carry(a: u8) -> Record {
    Record { kind: 3, a, word: 0 }
}

pub fn feed(a: u8, word: u32) -> Record {
    Record { kind: 4, a, word }
}

pub fn crash(a: u8) -> Record {
    Record { kind: 5, a, word: 0 }
}

/// W-210: "Move 6 returns board a".
pub fn give_back(a: u8) -> Record {
    Record { kind: 6, a, word: 0 }
}

/// W-210: "Move 7 resyncs process a".
pub fn resync(a: u8) -> Record {
    Record { kind: 7, a, word: 0 }
}

/// W-214: "Move 8, with a and word 0".
pub fn back() -> Record {
    Record { kind: 8, a: 0, word: 0 }
}

/// "feed 0 with 5, then 7; step 0 three times; carry 0; step four times; crash 0; step seven times; carry 1; step"
pub fn sample_schedule() -> Vec<Record> {
    let mut records = vec![feed(0, 5), feed(0, 7)];
    records.extend([step(0); 3]);
    records.push(carry(0));
    records.extend([step(0); 4]);
    records.push(crash(0));
    records.extend([step(0); 7]);
    records.extend([carry(1), step(0)]);
    records
}
