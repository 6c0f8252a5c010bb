//! What a run is lent: owned and borrowed, what it writes there and what it leaves alone, and the words on the bus that are read off it.
use kunzeastylus::{
    judge, label_run, run, Buffers, BusWord, Code, End, Lengths, Operation, Reason, Record, Refusal, Table, SCANNER,
};

/// A process that takes a word from the outside and sends it to the outside, at places 1 and 2, for ever.
fn table() -> Vec<u8> {
    let mut table = Table::new(2);
    let scans = table.channel(End::Outside, End::Process(0));
    let outlet = table.channel(End::Process(0), End::Outside);
    let send = Operation::Send { register: 0, channel: outlet };
    table.process(
        0,
        1,
        &[Operation::Take { register: 0, channel: scans }, send, send, Operation::Jump { register: 0, place: 0 }],
    );
    table.bytes().expect("a table")
}

/// A word is fed, taken and sent twice, of which one is carried; the board is pulled, and the other is sent again.
fn schedule() -> Vec<u8> {
    let (step, carry) = (Record::step(0), Record::carry);
    let before = [Record::feed(0, 9), step, step, step, carry(0), Record::crash(0)];
    Record::schedule(&[&before[..], &[step, step, step, carry(1), carry(1)]].concat())
}

fn bus_order() -> Vec<BusWord> {
    let sent = |place| BusWord { channel: 1, word: 9, sender: End::Process(0), place };
    vec![BusWord { channel: 0, word: 9, sender: End::Outside, place: 0 }, sent(1), sent(2)]
}

#[test]
fn the_bus_order() {
    let (table, schedule) = (table(), schedule());
    let mut buffers = Buffers::for_run(&table, &schedule);
    assert_eq!(buffers.lengths(), Lengths { answers: 66, reasons: 11, report: 20, origins: 22 });
    // The same buffers again and again.
    for _ in 0..2 {
        let run = run(&table, &schedule, &mut buffers).expect("a sound run");
        assert_eq!(run.bus().collect::<Vec<_>>(), bus_order());
        for answer in run.answers() {
            let shown = answer.bus.map(|on_the_bus| (on_the_bus.channel, on_the_bus.word));
            assert_eq!(shown, (answer.code == Code::OnTheBus).then_some((answer.a, answer.word)));
        }
    }
    let origins = [255, 0, 255, 255, 255, 255, 255, 255, 0, 1, 255, 255, 255, 255, 255, 255, 255, 255, 0, 2, 255, 255];
    assert_eq!(buffers.origins, origins);
}

/// Each buffer alone one byte short, and the order in which they are looked at: 11, 12, 51.
#[test]
fn short_by_a_byte() {
    let (table, schedule) = (table(), schedule());
    let needed = Lengths::needed(11, 1);
    let numbers = [Refusal::AnswersShort, Refusal::AnswersShort, Refusal::ReportShort, Refusal::OriginsShort];
    for short in 0..16 {
        let less = |buffer: usize| short >> buffer & 1;
        let lengths = Lengths {
            answers: needed.answers - less(0),
            reasons: needed.reasons - less(1),
            report: needed.report - less(2),
            origins: needed.origins - less(3),
        };
        let wanted = (0..4).find(|&buffer| less(buffer) == 1).map_or(Ok(()), |buffer| Err(numbers[buffer]));
        assert_eq!(judge(&table, &schedule, lengths), wanted, "{lengths:?}");
        let [mut answers, mut reasons, mut report, mut origins] = [[0xEE; 66]; 4];
        let mut lent = Buffers {
            answers: &mut answers[..lengths.answers],
            reasons: &mut reasons[..lengths.reasons],
            report: &mut report[..lengths.report],
            origins: &mut origins[..lengths.origins],
        };
        assert_eq!(run(&table, &schedule, &mut lent).map(|_| ()), wanted, "{lengths:?}");
        if wanted.is_err() {
            assert_eq!([answers, reasons, report, origins], [[0xEE; 66]; 4], "{lengths:?}: a refused run writes");
        }
    }
    assert_eq!(judge(&table, &schedule, Lengths::ENOUGH), Ok(()));
}

#[test]
fn longer_ones_will_do() {
    let (table, schedule) = (table(), schedule());
    let [mut answers, mut reasons, mut report, mut origins] = [[0xEE; 100]; 4];
    let mut lent = Buffers { answers: &mut answers, reasons: &mut reasons, report: &mut report, origins: &mut origins };
    let accepted = run(&table, &schedule, &mut lent).expect("a sound run");
    assert_eq!((accepted.records(), accepted.bus().collect()), (11, bus_order()));
    let last = accepted.answers().last().expect("an answer");
    assert_eq!((last.code, last.reason, last.a, last.word, last.bus), (Code::QueueEmpty, Reason::QueueEmpty, 1, 0, None));
    let end = accepted.processes().next().expect("a process");
    assert_eq!((end.board, end.place, end.unread, end.registers, accepted.quiet), (1, 3, 0, [9, 0, 0, 0], false));
    assert!([&answers[66..], &reasons[11..], &report[20..], &origins[22..]].concat().iter().all(|&byte| byte == 0xEE));
}

/// Buffers are made for any bytes, and are long enough for what is no run.
#[test]
fn for_any_bytes() {
    assert_eq!(run(&[], &schedule(), &mut Buffers::for_run(&[], &schedule())), Err(Refusal::TableLength));
    assert_eq!(run(&table(), &[], &mut Buffers::for_run(&table(), &[])), Err(Refusal::ScheduleLength));
    let many = Record::schedule(&[Record::step(0); 10_001]);
    let mut buffers = Buffers::for_run(&table(), &many);
    assert_eq!((buffers.lengths().origins, run(&table(), &many, &mut buffers)), (20_000, Err(Refusal::ScheduleLength)));
    let most = Record::schedule(&[Record::step(0); 10_000]);
    assert_eq!(run(&table(), &most, &mut buffers).map(|run| run.records()), Ok(10_000));
}

#[test]
fn of_the_label_line() {
    let carton = [&[Record::feed(SCANNER, 77)][..], &[Record::step(0); 5], &[Record::carry(0); 2]].concat();
    let schedule = Record::schedule(&carton);
    let mut buffers = Buffers::for_label_run(&schedule);
    let run = label_run(1000, &schedule, &mut buffers).expect("a sound run");
    let shown: Vec<_> =
        run.bus().map(|on_the_bus| (on_the_bus.channel, on_the_bus.word, on_the_bus.sender, on_the_bus.place)).collect();
    assert_eq!(shown, [(0, 77, End::Outside, 0), (1, 77, End::Process(0), 3), (1, 1000, End::Process(0), 4)]);
    buffers.origins.pop();
    assert_eq!(label_run(1000, &schedule, &mut buffers), Err(Refusal::OriginsShort));
}
