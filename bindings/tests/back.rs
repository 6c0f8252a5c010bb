//! A back key (W-214): which records stand, what took back what, and that the bus order and the labels go by what stands.
use kunzeastylus::{labels, BusWord, Cabinet, Code, End, Fate, Label, Operation, Reason, Record, Run, Table, OUTLET, SCANNER};

/// A process that takes a word from the outside and sends it to the outside, for ever.
fn table() -> Vec<u8> {
    let mut table = Table::new(2);
    let scans = table.channel(End::Outside, End::Process(0));
    let outlet = table.channel(End::Process(0), End::Outside);
    let send = Operation::Send { register: 0, channel: outlet };
    table.process(0, 1, &[Operation::Take { register: 0, channel: scans }, send, Operation::Jump { register: 0, place: 0 }]);
    table.bytes().expect("a table")
}

fn ran(schedule: &[u8]) -> Run {
    Cabinet::new(table()).and_then(|cabinet| cabinet.run(schedule)).expect("a sound run")
}

fn codes(run: &Run) -> Vec<u8> {
    run.answers().map(|answer| answer.code.number()).collect()
}

#[test]
fn what_took_back_what() {
    let (feed, step, back) = (Record::feed(0, 9), Record::step(0), Record::back());
    // The feed stands; a step is refused and taken back; a move 8 with a word, and one with nothing left to take back, stand nowhere.
    let stray = Record { word: 1, ..back };
    let schedule = Record::schedule(&[back, feed, step, step, Record::carry(9), back, stray, back, back]);
    let run = ran(&schedule);
    assert_eq!(codes(&run), [53, 4, 1, 2, 33, 7, 32, 7, 7]);
    let taken = |i| Fate::TakenBackBy(i);
    let fates = [
        Fate::TookNothing,
        Fate::Stands,
        taken(8),
        taken(7),
        taken(5),
        Fate::TookBack(4),
        Fate::TookNothing,
        Fate::TookBack(3),
        Fate::TookBack(2),
    ];
    assert_eq!(run.fates(), fates);
    assert_eq!(run.standing().map(|(i, answer)| (i, answer.code)).collect::<Vec<_>>(), [(1, Code::OnTheBus)]);
    let causes: Vec<Reason> = run.answers().map(|answer| answer.reason).collect();
    assert_eq!((causes[0], causes[5], causes[6]), (Reason::NoneKept, Reason::TakenBack, Reason::WordNotZero));
    let end = run.processes().next().expect("a process");
    assert_eq!((end.place, end.unread, end.registers), (0, 1, [0; 4]));
}

#[test]
fn the_bus_order_goes_by_what_stands() {
    let (step, carry, back) = (Record::step(0), Record::carry(0), Record::back());
    let schedule = Record::schedule(&[Record::feed(0, 8), back, Record::feed(0, 9), step, step, carry, back, carry, back, back]);
    let run = ran(&schedule);
    assert_eq!(codes(&run), [4, 7, 4, 1, 2, 4, 7, 4, 7, 7]);
    let fed = BusWord { channel: 0, word: 9, sender: End::Outside, place: 0 };
    assert_eq!(run.bus().collect::<Vec<_>>(), [fed]);
    // The bytes written for what was taken back stay.
    let words: Vec<Option<u32>> = run.answers().map(|answer| answer.bus.map(|on_the_bus| on_the_bus.word)).collect();
    assert_eq!(words, [Some(8), None, Some(9), None, None, Some(9), None, Some(9), None, None]);
}

/// 64 are kept: a 65th pushes out the oldest, for good.
#[test]
fn sixty_four() {
    for given in [0, 1, 63, 64, 65, 200] {
        let records = [&vec![Record::step(0); given][..], &[Record::back(); 70]].concat();
        let run = ran(&Record::schedule(&records));
        let taken = given.min(64);
        let backs = &codes(&run)[given..];
        assert_eq!(backs, [vec![7; taken], vec![53; 70 - taken]].concat(), "{given} records");
        assert_eq!(run.standing().map(|(i, _)| i).collect::<Vec<_>>(), (0..given - taken).collect::<Vec<_>>());
    }
}

#[test]
fn labels_go_by_what_stands() {
    let (feed, back) = (|code| Record::feed(SCANNER, code), Record::back());
    let printed = [&[Record::step(0); 5][..], &[Record::carry(0); 2], &[Record::step(1); 3], &[Record::carry(1)]].concat();
    let serial = [&[Record::step(1); 3][..], &[Record::carry(1)]].concat();
    let records = [&[feed(501), back, feed(502)], &printed[..], &serial, &[back, back]].concat();
    let schedule = Record::schedule(&records);
    let run = Cabinet::label_line(1000).and_then(|line| line.run(&schedule)).expect("a sound run");
    // The serial's carry is taken back.
    assert_eq!(labels(&run), [Label { code: 502, serial: None }]);
    let at_outlet: Vec<u32> =
        run.answers().filter_map(|answer| answer.bus).filter(|word| word.channel == OUTLET).map(|word| word.word).collect();
    assert_eq!(at_outlet, [502, 1000]);
}
