//! Records taken back: document 02, W-214. "The records kept to go back to are held beside the cabinet and are no part of it": a session is a
//! cabinet and, beside it, whole cabinets, each as it was before a record that is kept.
use super::answer::Answer;
use super::reader::{Record, Table};
use super::simulator::Cabinet;
use std::collections::VecDeque;

/// "Move 8"
pub const BACK: u8 = 8;

/// "Of the others 64 are kept to go back to"
pub const KEPT: usize = 64;

/// "answers 7 with 0 and 0"
pub const TAKEN_BACK: Answer = Answer::new(7, 0, 0);

#[derive(Clone, Debug)]
pub struct Session<'t> {
    pub cabinet: Cabinet<'t>,
    /// The cabinet before each record that is kept, the oldest first.
    kept: VecDeque<Cabinet<'t>>,
    /// False where nobody will go back, so that no cabinet need be copied.
    keeps: bool,
}

impl<'t> Session<'t> {
    /// At the start nothing is kept.
    pub fn new(table: &'t Table) -> Session<'t> {
        Session { cabinet: Cabinet::new(table), kept: VecDeque::new(), keeps: true }
    }

    /// The same for records of these moves: where none of them is a move 8, nobody goes back.
    pub fn of(table: &'t Table, mut moves: impl Iterator<Item = u8>) -> Session<'t> {
        Session { keeps: moves.any(|kind| kind == BACK), ..Session::new(table) }
    }

    /// One record and its answer.
    pub fn answer(&mut self, record: Record) -> Answer {
        // "A move 8 is itself never taken back."
        if record.kind == BACK {
            return self.back(record);
        }
        if self.keeps {
            // "only a 65th pushes out the oldest, for good"
            if self.kept.len() == KEPT {
                self.kept.pop_front();
            }
            self.kept.push_back(self.cabinet.clone());
        }
        self.cabinet.answer(record)
    }

    /// "takes back the last record not yet taken back, refused ones included"
    fn back(&mut self, record: Record) -> Answer {
        // "with a and word 0 (else 32, cause 1)"
        if (record.a, record.word) != (0, 0) {
            return Answer::refused(32, record.a as usize).because(1);
        }
        // "53, no record is kept to go back to, move 8's last refusal"
        let Some(before) = self.kept.pop_back() else { return Answer::refused(53, 0) };
        // "The cabinet is then exactly as before that record: inboxes, saved lists, queues, totals, dead boards."
        self.cabinet = before;
        TAKEN_BACK
    }
}

/// The places, from 0, of the records that stand in the end, given each one's move and its answer's code: no move 8 stands, done or refused, and
/// nothing that was taken back. "Words carried by a record taken back don't count in the bus order, and feeds taken back don't count as fed".
pub fn standing(run: impl IntoIterator<Item = (u8, u8)>) -> Vec<usize> {
    let mut places = Vec::new();
    for (i, (kind, code)) in run.into_iter().enumerate() {
        match (kind, code) {
            (BACK, 7) => {
                places.pop().expect("a record that is taken back");
            }
            (BACK, _) => (),
            _ => places.push(i),
        }
    }
    places
}

/// The same of records with their answers.
pub fn standing_of(run: &[(Record, Answer)]) -> Vec<usize> {
    standing(run.iter().map(|(record, answer)| (record.kind, answer.code)))
}
