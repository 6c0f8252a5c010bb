//! Runs that size their own buffers, schedules read back, and refusals as errors: what a program in Rust writes without a thought of bytes.
use kunzeastylus::{
    label_table, run, sweep, BackupRefusal, Buffers, Cabinet, Code, End, Move, Operation, Record, Refusal, Table, UnknownNumber,
    VERSION,
};
use std::error::Error;

/// A process that takes a word from the outside and sends it to the outside, for ever.
fn table() -> Table {
    let mut table = Table::new(2);
    let scans = table.channel(End::Outside, End::Process(0));
    let outlet = table.channel(End::Process(0), End::Outside);
    let send = Operation::Send { register: 0, channel: outlet };
    table.process(0, 1, &[Operation::Take { register: 0, channel: scans }, send, Operation::Jump { register: 0, place: 0 }]);
    table
}

fn records() -> Vec<Record> {
    let step = Record::step(0);
    vec![Record::feed(0, 9), step, step, Record::crash(0), step, step, Record::carry(1), step, step]
}

/// What both kinds of run say is the same.
#[test]
fn owned_as_borrowed() -> Result<(), Box<dyn Error>> {
    let (bytes, schedule) = (table().bytes()?, Record::schedule(&records()));
    let cabinet = Cabinet::new(&bytes[..])?;
    assert_eq!((Cabinet::try_from(&table()), cabinet.bytes(), cabinet.table()), (Ok(cabinet.clone()), &bytes[..], table()));
    let owned = cabinet.run(&schedule)?;
    let mut buffers = Buffers::for_run(&bytes, &schedule);
    let borrowed = run(&bytes, &schedule, &mut buffers)?;
    assert_eq!((owned.quiet, owned.records()), (borrowed.quiet, 9));
    assert!(
        owned.answers().eq(borrowed.answers()) && owned.bus().eq(borrowed.bus()) && owned.processes().eq(borrowed.processes())
    );
    assert_eq!((owned.fates(), owned.standing().count()), (borrowed.fates(), 9));
    assert_eq!(owned.bus().map(|on_the_bus| (on_the_bus.channel, on_the_bus.word)).collect::<Vec<_>>(), [(0, 9), (1, 9)]);
    let swept = Record::schedule(&records()[..3]);
    assert_eq!(cabinet.sweep(&swept), sweep(&bytes, &swept));
    Ok(())
}

#[test]
fn what_is_refused() -> Result<(), Refusal> {
    assert_eq!(Cabinet::new([0, 0]), Err(Refusal::TableLength));
    assert_eq!(Cabinet::try_from(&Table::new(2)), Err(Refusal::TableCounts));
    assert_eq!(Cabinet::label_line(u32::MAX), Err(Refusal::FirstSerial));
    assert_eq!(Cabinet::label_line(7)?.bytes(), label_table(7)?);
    let cabinet = Cabinet::try_from(&table())?;
    assert_eq!(cabinet.run(&[0, 1]).map(|run| run.quiet), Err(Refusal::ScheduleLength));
    assert_eq!(cabinet.run(&[0, 1, 2]).map(|run| run.quiet), Err(Refusal::ScheduleVersion));
    assert_eq!(cabinet.sweep(&Record::schedule(&records())), Err(Refusal::Unswept));
    // However many records there are, a run finds room.
    let most = Record::schedule(&[Record::step(0); 10_000]);
    assert_eq!(cabinet.run(&most)?.answers().filter(|answer| answer.code == Code::NoWord).count(), 10_000);
    let many = Record::schedule(&[Record::step(0); 10_001]);
    assert_eq!(cabinet.run(&many).map(|run| run.quiet), Err(Refusal::ScheduleLength));
    Ok(())
}

/// A schedule read is the records that it was written from, unknown moves among them; what is none is refused as a run refuses it.
#[test]
fn schedules_read_back() {
    let strange = Record { code: 200, a: 201, word: 0xFFFF_FFFE };
    assert_eq!((strange.kind(), Record::from(strange.bytes()), Record::step(3).kind()), (None, strange, Some(Move::Step)));
    let all = [&records()[..], &[strange, Record::new(Move::Feed, 7, 8)]].concat();
    assert_eq!(Record::read(&Record::schedule(&all)), Ok(all));
    assert_eq!(Record::read(&Record::schedule(&[])), Ok(Vec::new()));
    let mut schedule = Record::schedule(&records());
    assert_eq!(Record::read(&schedule[1..]), Err(Refusal::ScheduleLength));
    schedule[2] = 2;
    assert_eq!(Record::read(&schedule), Err(Refusal::ScheduleVersion));
}

/// Each says its number and what that means, and `?` hands it on.
#[test]
fn errors_in_words() {
    let refused = || -> Result<Cabinet, Box<dyn Error>> { Ok(Cabinet::new([0, 4, 3, 2, 1, 1])?) };
    assert_eq!(refused().unwrap_err().to_string(), "refused 2: the table's version (byte 2) is neither 1 nor 2");
    for refusal in Refusal::ALL {
        assert_eq!(refusal.to_string(), format!("refused {}: {}", refusal.number(), refusal.words()));
    }
    let unknown = Refusal::try_from(13);
    assert_eq!(unknown, Err(UnknownNumber { of: "Refusal", number: 13 }));
    assert_eq!(unknown.unwrap_err().to_string(), "13 is the number of no Refusal");
    assert_eq!(BackupRefusal::try_from(20), Ok(BackupRefusal::Unfit));
    assert_eq!(VERSION.split('.').count(), 3);
}
