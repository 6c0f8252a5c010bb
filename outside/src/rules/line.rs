//! The label line: document 02, W-203, written from its text.
use super::answer::Answer;
use super::reader::Instruction::{Add, Jump, Send, Set, Take};
use super::reader::{Channel, Process, Record, Table, OUTSIDE};
use super::session::standing;

/// "The channels are 0 from the scanner, 1 to the printer program and 2, the outlet."
pub const SCANNER: u8 = 0;
const PRINTER: u8 = 1;
pub const OUTLET: u8 = 2;

/// "46, a first serial above 4,294,957,295"
pub const SERIAL_MOST: u32 = 4_294_957_295;

/// "The numbering program, process 0, runs on board 0 with its stand-by on board 1, the printer program, process 1, the other way round."
pub fn table(first: u32) -> Table {
    let numbering = vec![
        Set { a: 1, word: first },
        Set { a: 2, word: 1 },
        Take { a: 0, channel: SCANNER },
        Send { a: 0, channel: PRINTER },
        Send { a: 1, channel: PRINTER },
        Add { a: 1, b: 2 },
        Jump { a: 2, place: 2 },
    ];
    let printing =
        vec![Set { a: 1, word: 1 }, Take { a: 0, channel: PRINTER }, Send { a: 0, channel: OUTLET }, Jump { a: 1, place: 1 }];
    let channels = [(OUTSIDE, 0), (0, 1), (1, OUTSIDE)].map(|(sender, reader)| Channel { sender, reader });
    let mut table = Table::new(2, channels.to_vec());
    table.processes = vec![Process::new(0, 1, numbering), Process::new(1, 0, printing)];
    table
}

/// "For every carton fed, the outlet gets the carton's code and then the next serial." No sum here may wrap.
pub fn sequence(first: u32, cartons: &[u32]) -> Vec<u32> {
    cartons.iter().zip(0..).flat_map(|(&code, i)| [code, first.checked_add(i).expect("a serial over 32 bits")]).collect()
}

/// What a run shows by the records that stand (W-214): the codes of the cartons that it was fed, and the words at its outlet.
pub fn seen(records: &[Record], answers: &[Answer]) -> (Vec<u32>, Vec<u32>) {
    let standing = standing(records.iter().zip(answers).map(|(record, answer)| (record.kind, answer.code)));
    let on_the_bus = |channel: u8| standing.iter().filter(move |&&i| (answers[i].code, answers[i].a) == (4, channel));
    let cartons = on_the_bus(SCANNER).filter(|&&i| records[i].kind == 4).map(|&i| records[i].word).collect();
    (cartons, on_the_bus(OUTLET).map(|&i| answers[i].word).collect())
}

/// Why these words at the outlet are not what these cartons call for, if they aren't.
pub fn fault(first: u32, cartons: &[u32], outlet: &[u32], quiet: bool) -> Option<&'static str> {
    let wanted = sequence(first, cartons);
    if !wanted.starts_with(outlet) {
        return Some("the outlet's words are no beginning of the sequence");
    }
    (quiet && wanted.len() > outlet.len()).then_some("a quiet end, and not every label is out")
}
