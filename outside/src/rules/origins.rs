//! The list of origins: document 02, W-212. Records on small tables, and what the last of them show, by hand.
use super::reader::Instruction::{Jump, Send, Set, Take};
use super::reader::{Channel, Instruction, Process, Record, Table, OUTSIDE};
use super::reasons::one;
use super::sample::{back, carry, crash, feed, give_back, resync, step, sync};

/// Some records on a table, and of the last of them code, sender and place, written by hand.
pub struct ByHand {
    pub name: &'static str,
    pub table: Table,
    pub records: Vec<Record>,
    pub last: Vec<(u8, u8, u8)>,
}

/// "255 and 255 where no word was on the bus"
fn none(code: u8) -> (u8, u8, u8) {
    (code, 255, 255)
}

/// On the outlet of the table of one process.
const SEND: Instruction = Send { a: 3, channel: 2 };

/// So many SETs, and a SEND to a channel behind them.
fn sends_at(place: u8, channel: u8) -> Vec<Instruction> {
    [&vec![Set { a: 3, word: 1 }; place as usize][..], &[Send { a: 3, channel }]].concat()
}

/// Sixteen processes that send a word to the outside, each on a channel of its own.
fn sixteen(boards: impl Fn(u8) -> (u8, u8), place: impl Fn(u8) -> u8) -> Table {
    let mut table = Table::new(16, (0..16).map(|sender| Channel { sender, reader: OUTSIDE }).collect());
    table.processes.extend((0..16).map(|p| Process::new(boards(p).0, boards(p).1, sends_at(place(p), p))));
    table
}

/// The steps of `sixteen` up to each one's SEND.
fn sixteen_steps(place: impl Fn(u8) -> u8) -> Vec<Record> {
    (0..16).flat_map(|p| vec![step(p); place(p) as usize + 1]).collect()
}

/// Process 0 on board 0, which reads what process 1 on board 2 sends; both have their backups elsewhere.
fn two() -> Table {
    let ends = [(1, 0), (1, OUTSIDE)];
    let mut table = Table::new(3, ends.map(|(sender, reader)| Channel { sender, reader }).to_vec());
    table.processes.push(Process::new(0, 1, vec![Take { a: 0, channel: 0 }]));
    let sends = [0, 1].map(|channel| Send { a: 0, channel });
    table.processes.push(Process::new(2, 0, [&[Set { a: 0, word: 7 }][..], &sends].concat()));
    table
}

/// "A program with two sends of the same word can hide a wrong jump": it jumps to this one of them, at place 2 or at place 4.
pub fn jumps_to(place: u8) -> (Table, Vec<Record>) {
    let back = Jump { a: 3, place: 1 };
    let table = one(&[Set { a: 3, word: 9 }, Jump { a: 3, place }, SEND, back, SEND, back]);
    let round = [step(0); 3];
    (table, [&[step(0)], &round[..], &[carry(0), crash(0), step(0)], &round, &round, &[carry(1)]].concat())
}

pub fn by_hand() -> Vec<ByHand> {
    let mut cases = Vec::new();
    let mut case = |name, table, records: &[Record], last: &[(u8, u8, u8)]| {
        cases.push(ByHand { name, table, records: records.to_vec(), last: last.to_vec() });
    };
    let refused = [feed(1, 9), step(1), carry(2), Record { kind: 9, a: 0, word: 0 }];
    let records = [&[feed(0, 9); 9][..], &refused].concat();
    let last = [(4, 255, 0), none(39), none(43), none(33), none(33), none(32)];
    case("fed, and refused", one(&[]), &records, &last);

    let records = [step(0), step(0), carry(0), carry(0), carry(0), step(0)];
    let last = [none(2), none(2), (4, 0, 0), (4, 0, 1), none(42), none(35)];
    case("places 0 and 1, and refusals behind them", one(&[SEND; 2]), &records, &last);
    let records = [&[step(0); 64][..], &[carry(0)]].concat();
    case("place 63, the last that there is", one(&sends_at(63, 2)), &records, &[none(0), none(2), (4, 0, 63)]);
    let on = [&[SEND][..], &[Set { a: 0, word: 1 }; 2]].concat();
    case("the SEND's place, and not where the process stands", one(&on), &[step(0), step(0), step(0), carry(0)], &[(4, 0, 0)]);
    let own = [Set { a: 0, word: 3 }, Send { a: 0, channel: 1 }, Take { a: 1, channel: 1 }, Send { a: 1, channel: 2 }];
    let records = [step(0), step(0), carry(0), step(0), step(0), carry(0)];
    case("a word to itself", one(&own), &records, &[none(0), none(2), (4, 0, 1), none(1), none(2), (4, 0, 3)]);
    let records = [step(0), sync(0), carry(0), carry(0), sync(0), crash(1), carry(0)];
    let last = [none(2), none(0), (4, 0, 0), none(5), none(0), none(0), none(6)];
    case("carried syncs show nothing", one(&[SEND; 2]), &records, &last);

    let own_place = |p| p;
    let records = [sixteen_steps(own_place), (0..16).rev().map(carry).collect()].concat();
    let last: Vec<_> = (0..16).rev().map(|p| (4, p, p)).collect();
    case("sixteen senders on sixteen boards", sixteen(|p| (p, (p + 1) % 16), own_place), &records, &last);
    let from_behind = |p| 63 - p;
    let records = [sixteen_steps(from_behind), vec![carry(0); 16]].concat();
    let last: Vec<_> = (0..16).map(|p| (4, p, 63 - p)).collect();
    case("sixteen senders on one board", sixteen(|_| (0, 1), from_behind), &records, &last);

    let again = [&[step(0); 3][..], &[carry(0), crash(0)], &[step(0); 3], &[carry(1); 3]].concat();
    let last = [(4, 0, 0), none(0), none(3), none(2), none(2), (4, 0, 1), (4, 0, 2), none(42)];
    case("carried before the crash and held back; lost and sent again", one(&[SEND; 3]), &again, &last);
    let records = [step(1), step(1), step(1), crash(0), carry(2), carry(2), step(0)];
    let last = [none(2), none(2), none(0), (4, 1, 1), (4, 1, 2), none(1)];
    case("sent before another board's crash, carried after it", two(), &records, &last);
    let lead = [crash(1), give_back(1), step(0), resync(0), step(0)];
    let records = [&lead[..], &[carry(0); 3], &[crash(0), step(0), step(0), carry(1)]].concat();
    let shown = [(4, 0, 0), none(5), (4, 0, 1), none(0), none(3), none(2), (4, 0, 2)];
    let last = [&[none(0), none(0), none(2), none(0), none(2)][..], &shown].concat();
    case("returned and resynced, and the other board pulled", one(&[SEND; 3]), &records, &last);
    for (name, place) in [("a jump to the SEND at 2", 2), ("a jump to the SEND at 4", 4)] {
        let (table, records) = jumps_to(place);
        let (round, shown) = (|send| [none(0), none(send), none(0)], (4, 0, place));
        let last = [&round(2)[..], &[shown, none(0), none(0)], &round(3), &round(2), &[shown]].concat();
        case(name, table, &records, &last);
    }
    // W-214: a move 8 shows nothing, and "the bytes written for such records stay".
    let records = [feed(0, 9), back(), step(0), carry(0), back(), back(), back(), step(0), carry(0), Record { a: 1, ..back() }];
    let last = [(4, 255, 0), none(7), none(2), (4, 0, 0), none(7), none(7), none(53), none(2), (4, 0, 0), none(32)];
    case("taken back", one(&[SEND]), &records, &last);
    cases
}

#[cfg(test)]
mod tests {
    use super::{by_hand, jumps_to};
    use crate::rules::generate::{encode_schedule, encode_table};
    use crate::rules::lent::Lent;
    use crate::rules::plain::transparent;
    use crate::rules::run::run;
    use crate::rules::session::Session;

    #[test]
    fn as_by_hand() {
        for case in by_hand() {
            let mut session = Session::new(&case.table);
            let run: Vec<_> = case.records.iter().map(|&record| (record, session.answer(record))).collect();
            let shown: Vec<_> = run.iter().map(|(_, answer)| (answer.code, answer.origin.sender, answer.origin.place)).collect();
            assert_eq!(shown[shown.len() - case.last.len()..], case.last, "{}", case.name);
            transparent(&case.table, &run, &session.cabinet).unwrap_or_else(|fault| panic!("{}: {fault}", case.name));
        }
    }

    /// The plain cabinet tells a word from the wrong place or sender, and so each of the four fields.
    #[test]
    fn from_elsewhere() {
        let case = by_hand().into_iter().find(|case| case.name.starts_with("sent before")).expect("a case");
        let mut session = Session::new(&case.table);
        let run: Vec<_> = case.records.iter().map(|&record| (record, session.answer(record))).collect();
        let at = run.iter().position(|(_, answer)| answer.code == 4).expect("a word on the bus");
        for field in 0..4 {
            let mut other = run.clone();
            let answer = &mut other[at].1;
            match field {
                0 => answer.a ^= 1,
                1 => answer.word ^= 1,
                2 => answer.origin.sender ^= 1,
                _ => answer.origin.place ^= 1,
            }
            assert!(transparent(&case.table, &other, &session.cabinet).is_err(), "field {field}");
        }
    }

    /// Two tables that differ by a wrong jump: only the origins tell.
    #[test]
    fn a_wrong_jump_shows() {
        let [right, wrong] = [2, 4].map(|place| {
            let (table, records) = jumps_to(place);
            run(&encode_table(&table), &encode_schedule(&records), Lent::needed(records.len(), 1))
        });
        let without = |run: &crate::rules::run::Run| Lent { origins: Vec::new(), ..run.lent.clone() };
        assert_eq!((right.outcome, without(&right)), (wrong.outcome, without(&wrong)));
        assert_ne!(right.lent.origins, wrong.lent.origins);
    }
}
