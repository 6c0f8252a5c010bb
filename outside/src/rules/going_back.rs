//! Schedules in which records are taken back (W-214): one by one or in long rows, now and then or all the time, given again or replaced by
//! others, and with move 8s among them that are refused.
use super::generate::{any_word, continued};
use super::reader::{Record, Table};
use super::sample::{back, crash};
use super::session::{Session, BACK};
use crate::random::Random;
use std::collections::VecDeque;

/// How a schedule goes back: once in so many records, so many in a row.
struct Habits {
    once_in: u32,
    rows: &'static [usize],
}

/// Long rows are seldom: there must be something to go back to.
fn habits(random: &mut Random) -> Habits {
    let (often, rows): (&[u32], &[usize]) = random.pick(&[
        (&[1, 2, 5, 20][..], &[1][..]),
        (&[2, 5, 20], &[1, 1, 2, 3]),
        (&[15, 40], &[1, 5, 20]),
        (&[70, 90], &[60, 63, 64, 65, 66]),
        (&[50, 80], &[1, 2, 64, 70]),
    ]);
    Habits { once_in: random.pick(often), rows }
}

/// A move 8 with `a` or a word: it is refused.
pub fn stray(random: &mut Random) -> Record {
    let a = random.pick(&[0, 1, 8, 255]);
    let word = if a == 0 { 1 + random.below(u32::MAX) } else { any_word(random) };
    Record { kind: BACK, a, word }
}

/// A schedule while it is written, and what of it stands.
struct Going<'t> {
    session: Session<'t>,
    schedule: Vec<Record>,
    standing: Vec<Record>,
}

impl Going<'_> {
    fn give(&mut self, record: Record) {
        let code = self.session.answer(record).code;
        self.schedule.push(record);
        match record.kind {
            BACK if code == 7 => {
                self.standing.pop();
            }
            BACK => (),
            _ => self.standing.push(record),
        }
    }

    /// So many move 8s in a row, with some among them that are refused; the records that they take back, in order.
    fn back(&mut self, random: &mut Random, row: usize) -> Vec<Record> {
        let before = self.standing.clone();
        for _ in 0..row {
            if random.once_in(8) {
                self.give(stray(random));
            }
            self.give(back());
        }
        before[self.standing.len()..].to_vec()
    }
}

/// The records of a schedule one after the other, with move 8s between them, as long as it has no more than `most`. What is taken back is given
/// again, replaced by records that suit the cabinet as it is then, or left out.
pub fn going_back(random: &mut Random, table: &Table, records: Vec<Record>, most: usize) -> Vec<Record> {
    let habits = habits(random);
    let mut going = Going { session: Session::new(table), schedule: Vec::new(), standing: Vec::new() };
    // At the very beginning there is nothing to go back to.
    if random.once_in(3) {
        going.back(random, 1);
    }
    let mut ahead = VecDeque::from(records);
    while going.schedule.len() < most {
        let Some(record) = ahead.pop_front() else { break };
        going.give(record);
        if !random.once_in(habits.once_in) {
            continue;
        }
        let row = random.pick(habits.rows);
        let taken = going.back(random, row);
        let instead = match random.below(4) {
            0 | 1 => taken,
            2 => continued(random, table, going.session.cabinet.clone(), taken.len().min(20)),
            _ => Vec::new(),
        };
        instead.into_iter().rev().for_each(|record| ahead.push_front(record));
    }
    going.schedule.truncate(most);
    going.schedule
}

/// So many pairs of a record and its back, after some others: the cabinet stands where those left it.
pub fn pairs(random: &mut Random, table: &Table, lead: usize, pairs: usize) -> Vec<Record> {
    let mut session = Session::new(table);
    let mut schedule = continued(random, table, session.cabinet.clone(), lead);
    schedule.iter().for_each(|&record| {
        session.answer(record);
    });
    for _ in 0..pairs {
        let record = match random.below(10) {
            0 => crash(random.below(table.boards as u32) as u8),
            1 => Record { kind: random.pick(&[0, 1, 2, 4, 6, 7, 9, 255]), a: random.below(20) as u8, word: random.below(2) },
            _ => continued(random, table, session.cabinet.clone(), 1)[0],
        };
        // A move 8 that is refused, before the record or behind its back, takes nothing back and is kept nowhere.
        if random.once_in(40) {
            schedule.push(stray(random));
        }
        schedule.extend([record, back()]);
    }
    schedule
}
