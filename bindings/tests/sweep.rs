//! The sweep: its counts, and what refuses it.
use kunzeastylus::{sweep, Record, Refusal, Sweep};

/// Document 01's sample: a process that adds up what it is fed, on board 0, with its backup on board 1.
const SAMPLE: [u8; 37] =
    [0, 35, 1, 2, 1, 2, 255, 0, 0, 255, 0, 1, 4, 3, 0, 0, 0, 0, 0, 2, 1, 0, 0, 0, 0, 5, 1, 0, 0, 0, 1, 6, 0, 0, 0, 0, 0];

fn swept(records: &[Record]) -> Result<Sweep, Refusal> {
    sweep(&SAMPLE, &Record::schedule(records))
}

/// The case that is computed from the definitions (crates/rules/proofs/SweepCases.antt).
#[test]
fn counted() {
    let step = Record::step(0);
    let carry = Record::carry(0);
    let records = [Record::feed(0, 5), Record::feed(0, 7), step, step, step, carry, step, step, step, step, carry, step];
    assert_eq!(swept(&records), Ok(Sweep { quiet: 13, held: 4, open: 9 }));
    assert_eq!(swept(&records).map(Sweep::runs), Ok(2 * 13));
    assert_eq!(swept(&[]), Ok(Sweep { quiet: 2, held: 0, open: 0 }));
}

#[test]
fn refused() {
    assert_eq!(sweep(&[], &[]), Err(Refusal::TableLength));
    assert_eq!(sweep(&SAMPLE, &[]), Err(Refusal::ScheduleLength));
    assert_eq!(swept(&[Record::step(0), Record::crash(9)]), Err(Refusal::Unswept));
    assert_eq!(swept(&[Record::step(0), Record::back()]), Err(Refusal::Unswept));
    assert_eq!(swept(&[Record { a: 1, word: 1, ..Record::back() }]), Err(Refusal::Unswept));
    assert_eq!(swept(&[Record::step(0); 501]), Err(Refusal::Unswept));
    assert_eq!(swept(&[Record::step(0); 500]).map(Sweep::runs), Ok(1_002));
}
