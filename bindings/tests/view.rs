//! The whole cabinet after document 01's sample, and at its places of interest.
use kunzeastylus::{view, BackupState, Entry, Record, Refusal, SavedWord, UnreadWord};

const SAMPLE: [u8; 37] = [
    0x00, 0x23, 0x01, 0x02, 0x01, 0x02, 0xFF, 0x00, 0x00, 0xFF, 0x00, 0x01, 0x04, 0x03, 0x00, 0, 0, 0, 0, 0x02, 0x01, 0, 0, 0, 0,
    0x05, 0x01, 0, 0, 0, 0x01, 0x06, 0x00, 0, 0, 0, 0,
];

#[test]
fn words_are_where_they_should_be() {
    let records = [Record::feed(0, 5), Record::feed(0, 7), Record::step(0), Record::step(0), Record::step(0), Record::sync(0)];
    let seen = view(&SAMPLE, &Record::schedule(&records)).expect("a sound run");
    let [process] = seen.processes() else { panic!("one process") };
    assert_eq!((process.board, process.place, process.registers), (0, 3, [5, 5, 0, 0]));
    // Counted since the sync was issued.
    assert_eq!((process.acts, process.instructions, process.takes), (0, 0, [0; 4]));
    assert_eq!(process.inbox(), [UnreadWord { channel: 0, word: 7 }]);
    assert_eq!(process.backup.state(), BackupState::Complete);
    assert_eq!(process.backup.words(), [SavedWord { slot: 0, word: 5 }, SavedWord { slot: 0, word: 7 }]);
    let [first, second] = seen.boards() else { panic!("two boards") };
    assert!(!first.is_dead() && second.queue().len() == 0);
    let sync = Entry::Sync { process: 0, place: 3, registers: [5, 5, 0, 0], takes: [1, 0, 0, 0] };
    assert_eq!(first.queue().collect::<Vec<_>>(), [Entry::Word { channel: 1, word: 5, place: 2 }, sync]);
    assert_eq!(seen.totals(), [1, 1]);
}

#[test]
fn a_back_gives_the_view_before() {
    let before = [Record::feed(0, 5), Record::step(0)];
    let crashed = [&before[..], &[Record::crash(0)]].concat();
    let back = [&crashed[..], &[Record::back()]].concat();
    let seen = |records: &[Record]| view(&SAMPLE, &Record::schedule(records)).expect("a sound run");
    let pulled = seen(&crashed);
    assert!(pulled.boards()[0].is_dead() && pulled.processes()[0].backup.state() == BackupState::None);
    assert_eq!(seen(&back), seen(&before));
    assert_ne!(pulled, seen(&before));
}

#[test]
fn refused_as_a_run_is() {
    assert_eq!(view(&SAMPLE[..5], &Record::schedule(&[])).err(), Some(Refusal::TableLength));
    assert_eq!(view(&SAMPLE, &[]).err(), Some(Refusal::ScheduleLength));
}
