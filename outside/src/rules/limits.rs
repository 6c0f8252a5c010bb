//! Saved lists as long as they get: W-207, "at most 32 plus twice the limit saved words".
use super::reader::Instruction::{First, Jump, Set};
use super::reader::{Channel, Process, Record, Table, OUTSIDE};
use super::sample::{crash, feed, step, sync};

/// One process with this limit that reads four channels from the outside, for ever, with its backup on board 1.
pub fn four_channels(limit: u8) -> Table {
    let program = vec![Set { a: 3, word: 1 }, First { a: 0, mask: 0b1111 }, Jump { a: 3, place: 1 }];
    let mut table = Table::new(2, vec![Channel { sender: OUTSIDE, reader: 0 }; 4]);
    table.processes.push(Process::new(0, 1, program));
    table.limited(|_| limit)
}

/// How many words are saved at most.
pub fn most_saved(limit: u8) -> u8 {
    32 + 2 * limit
}

/// Leads there: a limit of words taken before the sync that waits, as many since, and 8 unread on each of four channels; then the crash, which
/// makes them the inbox. The words are 100, 101 and so on, in the order of their arrival.
pub fn fullest(limit: u8) -> Vec<Record> {
    let limit = limit as usize;
    let mut feeds = (0..).map(|i: u32| feed((i % 4) as u8, 100 + i));
    let mut records = vec![step(0)];
    records.extend(feeds.by_ref().take(32));
    records.extend(vec![step(0); 2 * limit]);
    records.push(sync(0));
    records.extend(feeds.by_ref().take(limit));
    records.extend(vec![step(0); 2 * limit]);
    records.extend(feeds.by_ref().take(limit));
    records.push(crash(0));
    records
}
