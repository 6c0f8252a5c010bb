//! The list of reasons: document 02, W-206. Which bytes can be in it, and records for each of them, by hand.
use super::reader::Instruction::{Add, First, Jump, Send, Set, Take};
use super::reader::{Channel, Instruction, Process, Record, Table, OUTSIDE};
use super::sample::{back, carry, crash, feed, give_back, resync, step, sync};

/// Every code, and its causes: "The cause is 0 except here."
pub const CAUSES: [(u8, &[u8]); 25] = [
    (0, &[0, 1, 2, 3]), // "1 for a sync, 2 for a crash"; W-210: "cause 3 under code 0 means a return or a resync"
    (1, &[0]),
    (2, &[0]),
    (3, &[0]),
    (4, &[0, 1]), // "1 for a feed"
    (5, &[0, 3]), // W-210: "under 5, 38 and 41 a resync"
    (6, &[0]),
    (7, &[0]),        // W-214: "answers 7 with 0 and 0"
    (32, &[0, 1]),    // "1 when the move is known and the word is at fault"; W-214: "else 32, cause 1"
    (33, &[0, 1, 2]), // "1 for a board, 2 for a channel"
    (34, &[0, 1]),    // "1 for a crash"
    (35, &[0]),
    (36, &[0, 1]),    // "1 for FIRST"
    (37, &[0, 1]),    // "1 when only the 64 instructions are to blame"
    (38, &[0, 1, 3]), // "1 for a sync"
    (39, &[0, 1]),    // "1 for a feed"
    (40, &[0]),
    (41, &[0, 3]),
    (42, &[0]),
    (43, &[0]),
    (44, &[0]),
    (48, &[0]),
    (49, &[0]),
    (50, &[0]),
    (53, &[0]), // W-214: "no record is kept to go back to"
];

/// Every byte that can be in the list.
pub fn reasons() -> impl Iterator<Item = u8> {
    CAUSES.iter().flat_map(|&(code, causes)| causes.iter().map(move |cause| 4 * code + cause))
}

/// Some records on a table, and what the last of them are answered: code and cause, written by hand.
pub struct ByHand {
    pub name: &'static str,
    pub table: Table,
    pub records: Vec<Record>,
    pub last: Vec<(u8, u8)>,
}

/// A table of two boards, whose one process reads channels 0, from the outside, and 1, from itself, and sends on 2 to the outside.
pub(super) fn one(program: &[Instruction]) -> Table {
    let ends = [(OUTSIDE, 0), (0, 0), (0, OUTSIDE)];
    let mut table = Table::new(2, ends.map(|(sender, reader)| Channel { sender, reader }).to_vec());
    table.processes.push(Process::new(0, 1, program.to_vec()));
    table
}

/// Four processes on one board, which send eight words each and fill its queue; the fifth can't send or sync.
fn full() -> (Table, Vec<Record>) {
    let mut table = Table::new(2, (0..5).map(|sender| Channel { sender, reader: OUTSIDE }).collect());
    table.processes.extend((0..5).map(|p| Process::new(0, 1, vec![Send { a: 0, channel: p }; 9])));
    (table, (0..32).map(|i| step(i % 4)).chain([step(4), sync(4)]).collect())
}

/// A round of so many instructions, among them this one: SETs, and a JUMP back at its end.
fn round(before: usize, named: Instruction, length: usize) -> Vec<Instruction> {
    let mut program = vec![Set { a: 3, word: 1 }; length];
    program[before] = named;
    program[length - 1] = Jump { a: 3, place: 0 };
    program
}

/// So many steps, with a word to take before each.
fn fed_steps(steps: usize) -> Vec<Record> {
    (0..steps).flat_map(|_| [feed(0, 9), step(0)]).collect()
}

pub fn by_hand() -> Vec<ByHand> {
    let mut cases = Vec::new();
    let mut case = |name, table, records: &[Record], last: &[(u8, u8)]| {
        cases.push(ByHand { name, table, records: records.to_vec(), last: last.to_vec() });
    };
    let any = |kind, a, word| Record { kind, a, word };
    let records = [any(0, 0, 0), any(9, 0, 1), any(255, 255, 1), any(1, 0, 1), any(5, 255, 1)];
    case(
        "an unknown move has cause 0, with or without a word",
        one(&[]),
        &records,
        &[(32, 0), (32, 0), (32, 0), (32, 1), (32, 1)],
    );
    let records = [step(1), sync(255), carry(2), crash(2), feed(3, 9)];
    case("no such process, board or channel", one(&[]), &records, &[(33, 0), (33, 0), (33, 1), (33, 1), (33, 2)]);

    let send = [Send { a: 0, channel: 2 }; 2];
    let records = [feed(0, 9), step(0), carry(0), sync(0), sync(0), carry(0), step(0), step(0)];
    let last = [(4, 1), (2, 0), (4, 0), (0, 1), (41, 0), (5, 0), (2, 0), (35, 0)];
    case("fed, carried, synced, halted", one(&send), &records, &last);
    let records = [feed(1, 9), carry(0), sync(0), crash(1), carry(0), crash(1), crash(0), carry(1), sync(0)];
    let last = [(43, 0), (42, 0), (0, 1), (0, 2), (6, 0), (34, 1), (44, 0), (34, 0), (40, 0)];
    case("crashed, and dead for a carry and for a crash", one(&[]), &records, &last);
    case("held back", one(&send), &[step(0), carry(0), crash(0), step(0)], &[(2, 0), (4, 0), (0, 2), (3, 0)]);

    case("no word for TAKE", one(&[Take { a: 0, channel: 0 }]), &[step(0)], &[(36, 0)]);
    case("no word for FIRST", one(&[First { a: 0, mask: 3 }]), &[step(0)], &[(36, 1)]);
    case("a word for FIRST", one(&[First { a: 0, mask: 1 }]), &[feed(0, 9), step(0)], &[(4, 1), (1, 0)]);
    let (table, records) = full();
    case("queue full, for SEND and for a sync", table, &records, &[(2, 0), (38, 0), (38, 1)]);
    // A word to itself counts on its channel while it is queued.
    let own = one(&[Set { a: 0, word: 1 }, Send { a: 0, channel: 1 }, Jump { a: 0, place: 1 }]);
    case("held, for SEND", own.clone(), &[&[step(0); 17][..], &[sync(0), step(0)]].concat(), &[(0, 0), (0, 1), (39, 0)]);
    case("held, for a feed", own, &[feed(0, 9); 9], &[(4, 1), (39, 1)]);

    for named in [Take { a: 0, channel: 0 }, First { a: 0, mask: 1 }, Send { a: 0, channel: 2 }] {
        case("eight acts", one(&round(0, named, 3)), &fed_steps(25), &[(37, 0)]);
        case("64 instructions and two acts", one(&round(0, named, 32)), &fed_steps(65), &[(37, 1)]);
        case("64 instructions and eight acts: not only the instructions", one(&round(0, named, 8)), &fed_steps(65), &[(37, 0)]);
    }
    let take = Take { a: 0, channel: 0 };
    let (set, mut add) = (round(1, take, 8), round(1, take, 8));
    add[0] = Add { a: 1, b: 3 };
    let jump = [&[Jump { a: 2, place: 0 }][..], &round(0, take, 7)].concat();
    for program in [set, add, jump] {
        case("the same at a SET, ADD or JUMP: always the instructions", one(&program), &fed_steps(65), &[(37, 1)]);
    }
    // W-210: moves 6 and 7.
    let records = [any(6, 9, 1), any(7, 9, 1), give_back(2), resync(1), give_back(0), resync(0)];
    let last = [(32, 1), (32, 1), (33, 1), (33, 0), (48, 0), (50, 0)];
    case("a return and a resync that can't be", one(&[]), &records, &last);
    let records = [sync(0), crash(1), resync(0), give_back(1), resync(0), carry(0), resync(0), resync(0), carry(0), sync(0)];
    let last = [(0, 1), (0, 2), (50, 0), (0, 3), (41, 3), (6, 0), (0, 3), (41, 3), (5, 3), (0, 1)];
    case("returned and resynced, with an old sync waiting at first", one(&[]), &records, &last);
    let records = [step(0), carry(0), crash(0), give_back(0), resync(0), step(0), resync(0)];
    case("a resync with hold-back", one(&send), &records, &[(0, 2), (0, 3), (49, 0), (3, 0), (0, 3)]);
    let (table, records) = full();
    let records = [&records[..32], &[crash(1), give_back(1), resync(4), sync(4)]].concat();
    case("queue full, for a resync", table, &records, &[(0, 2), (0, 3), (38, 3), (40, 0)]);
    case("eight acts don't stop a SET", one(&round(0, take, 3)), &fed_steps(23), &[(0, 0)]);
    // W-214: move 8.
    let records = [back(), any(8, 0, 1), any(8, 1, 0), any(8, 255, u32::MAX), feed(0, 9), any(8, 1, 0), back(), back()];
    let last = [(53, 0), (32, 1), (32, 1), (32, 1), (4, 1), (32, 1), (7, 0), (53, 0)];
    case("nothing to go back to; a fault in a or in the word", one(&[]), &records, &last);
    let records = [step(0), any(9, 7, 7), crash(9), crash(1), sync(0), back(), back(), back(), back(), back(), back()];
    let last = [(35, 0), (32, 0), (33, 1), (0, 2), (40, 0), (7, 0), (7, 0), (7, 0), (7, 0), (7, 0), (53, 0)];
    case("refused records and unknown moves are taken back", one(&[]), &records, &last);
    cases
}

#[cfg(test)]
mod tests {
    use super::{by_hand, reasons};
    use crate::rules::session::Session;

    #[test]
    fn each_byte_is_another() {
        let all: Vec<u8> = reasons().collect();
        assert_eq!(all.len(), 40);
        assert!(all.windows(2).all(|pair| pair[0] < pair[1]) && all.iter().all(|&byte| byte <= 4 * 53 + 3));
    }

    #[test]
    fn as_by_hand() {
        let mut met: Vec<u8> = Vec::new();
        for case in by_hand() {
            let mut session = Session::new(&case.table);
            let answers: Vec<_> = case.records.iter().map(|&record| session.answer(record)).collect();
            let last: Vec<_> = answers.iter().map(|answer| (answer.code, answer.cause)).collect();
            assert_eq!(last[last.len() - case.last.len()..], case.last, "{}", case.name);
            answers.iter().for_each(|answer| assert_eq!(answer.reason(), 4 * answer.code + answer.cause));
            met.extend(case.last.iter().map(|(code, cause)| 4 * code + cause));
        }
        reasons().for_each(|reason| assert!(met.contains(&reason), "no case of answer {} with cause {}", reason / 4, reason % 4));
    }
}
