//! The proved call's reasons and origins, beside those that are written by hand from document 02. The simulator has no part in this.
use crate::compare::Comparison;
use outside::call::ks_run;
use outside::rules::generate::{encode_schedule, encode_table};
use outside::rules::lent::Lent;
use outside::rules::reader::{Record, Table};
use outside::rules::{origins, reasons};

/// What the proved call writes for an accepted run.
fn written(table: &Table, records: &[Record]) -> Lent<Vec<u8>> {
    let mut lent = Lent::needed(records.len(), table.processes.len()).filled(0xEE);
    let number = ks_run(&encode_table(table), &encode_schedule(records), lent.lend());
    assert_eq!(number as u8, 0, "a run is refused: {table:?} {records:?}");
    lent
}

/// Shows what was given for the last records; false if it isn't what was written by hand.
fn equal(list: &str, name: &str, given: &[u8], wanted: &[u8]) -> bool {
    let given = &given[given.len() - wanted.len()..];
    let differs = if given == wanted { String::new() } else { format!(", DIFFERENT, by hand {wanted:?}") };
    println!("by hand: {list}: {name}: {given:?}{differs}");
    given == wanted
}

/// Every case by the proved call alone; false if one differs.
pub fn check() -> bool {
    let mut all = true;
    for case in reasons::by_hand() {
        let wanted: Vec<u8> = case.last.iter().map(|(code, cause)| 4 * code + cause).collect();
        all &= equal("reasons", case.name, &written(&case.table, &case.records).reasons, &wanted);
    }
    for case in origins::by_hand() {
        let lent = written(&case.table, &case.records);
        let wanted: Vec<u8> = case.last.iter().flat_map(|&(_, sender, place)| [sender, place]).collect();
        all &= equal("origins", case.name, &lent.origins, &wanted);
        let codes: Vec<u8> = lent.answers.chunks_exact(6).map(|answer| answer[0]).collect();
        all &= equal("codes", case.name, &codes, &case.last.iter().map(|&(code, ..)| code).collect::<Vec<_>>());
    }
    // "A program with two sends of the same word can hide a wrong jump": the origins tell it, and nothing else does.
    let [right, wrong] = [2, 4].map(origins::jumps_to).map(|(table, records)| written(&table, &records));
    let told = right.with(wrong).map(|(right, wrong)| right != wrong);
    println!("by hand: a wrong jump shows in {told:?}");
    all && told == Lent { origins: true, ..Lent::all(false) }
}

/// The same cases, whole, by both.
pub fn compare(comparison: &mut Comparison) {
    let reasons = reasons::by_hand().into_iter().map(|case| ("reasons by hand", case.table, case.records));
    let origins = origins::by_hand().into_iter().map(|case| ("origins by hand", case.table, case.records));
    for (kind, table, records) in reasons.chain(origins) {
        let buffers = Lent::needed(records.len(), table.processes.len());
        comparison.run(kind, &encode_table(&table), &encode_schedule(&records), buffers);
    }
}
