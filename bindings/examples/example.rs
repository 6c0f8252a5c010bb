//! The proved calls from Rust, as board programmers, the driver bench, the service desk, programmers who go back, the label line and the planner's
//! office use them. examples/example.c is the same in C; both print examples/example.out.
use kunzeastylus::{
    check_abi, judge, labels, run, Backup, BackupRefusal, Buffers, Cabinet, End, Lengths, Lists, Record, Refusal, Snapshot,
    Synced, SCANNER,
};
use std::error::Error;

/// Document 01's sample table.
const TABLE: [u8; 37] = [
    0x00, 0x23, 1, 2, 1, 2, // length, version, two boards, one process, two channels
    255, 0, 0, 255, // channel 0 from the outside to process 0, channel 1 the other way
    0, 1, 4, // process 0: board 0, backup board 1, four instructions
    3, 0, 0, 0, 0, 0, // TAKE register 0 from channel 0
    2, 1, 0, 0, 0, 0, // ADD register 0 to register 1
    5, 1, 0, 0, 0, 1, // SEND register 1 to channel 1
    6, 0, 0, 0, 0, 0, // JUMP to place 0 if register 0 is not 0
];

/// Document 01's sample schedule.
fn records() -> Vec<Record> {
    let step = Record::step(0);
    let mut records = vec![Record::feed(0, 5), Record::feed(0, 7), step, step, step, Record::carry(0), step, step, step, step];
    records.push(Record::crash(0));
    records.extend([step; 7]);
    records.extend([Record::carry(1), step]);
    records
}

fn show_record(name: &str, backup: &Backup) {
    let [r0, r1, r2, r3] = backup.registers();
    print!("{name}: place {}, registers {r0} {r1} {r2} {r3}, count {}, words", backup.place(), backup.count());
    backup.words().for_each(|(slot, word)| print!(" {slot}:{word}"));
    println!();
}

/// A stand-by that is kept by hand: three words arrive, one of the process is carried, and a sync lands that has taken one on slot 0. Refused are
/// a word on slot 4 and a sync that has taken one on slot 2.
fn board_programmer() -> Result<(), BackupRefusal> {
    let snapshot = |taken| Snapshot { place: 5, registers: [1, 2, 3, 4], taken };
    let mut backup = Backup::new();
    let mut synced = Synced::default();
    let replies = [
        backup.arrive(0, 10),
        backup.arrive(1, 11),
        backup.arrive(0, 12),
        backup.count_one(),
        backup.arrive(4, 13),
        backup.sync(&snapshot([0, 0, 1, 0])).map(|_| ()),
        backup.sync(&snapshot([1, 0, 0, 0])).map(|told| synced = told),
        backup.arrive(3, 14),
    ];
    print!("board programmer\nreplies");
    replies.iter().for_each(|reply| print!(" {}", reply.map_or_else(BackupRefusal::number, |()| 0)));
    println!();
    let [d0, d1, d2, d3] = synced.dropped;
    let [r0, r1, r2, r3] = synced.remain;
    println!("the sync dropped {d0} {d1} {d2} {d3}, and {r0} {r1} {r2} {r3} remain");
    show_record("saved", &backup);
    let taken_over = backup.take_over();
    println!("reply {}", taken_over.map_or_else(BackupRefusal::number, |_| 0));
    show_record("taken over", &taken_over?);
    Ok(())
}

/// A table and a schedule are judged before they are run, and then run, in buffers that are lent: the page.
fn driver_bench() -> Result<(), Refusal> {
    let schedule = Record::schedule(&records());
    let mut other = TABLE;
    other[2] = 9;
    let mut buffers = Buffers::for_run(&TABLE, &schedule);
    let lengths = buffers.lengths();
    let judged = [
        judge(&TABLE, &schedule, lengths),
        judge(&other, &schedule, lengths),
        judge(&TABLE, &schedule, Lengths { answers: 119, ..lengths }),
        judge(&TABLE, &schedule, Lengths { reasons: 19, ..lengths }),
        judge(&TABLE, &schedule, Lengths { report: 19, ..lengths }),
        judge(&TABLE, &schedule, Lengths { origins: 39, ..lengths }),
    ];
    print!("driver bench\njudged");
    judged.iter().for_each(|judged| print!(" {}", judged.map_or_else(Refusal::number, |()| 0)));
    println!();
    println!("{}", run(&other, &schedule, &mut buffers).unwrap_err());
    let run = run(&TABLE, &schedule, &mut buffers)?;
    println!("records {}", run.records());
    for (i, answer) in run.answers().enumerate() {
        println!("{} {} {} {}", i + 1, answer.code.number(), answer.a, answer.word);
    }
    for (p, end) in run.processes().enumerate() {
        let [r0, r1, r2, r3] = end.registers;
        println!("process {p} {} {} {} {} {r0} {r1} {r2} {r3}", end.board, end.place, end.unread, end.hold_back);
    }
    println!("quiet {}", run.quiet as u8);
    Ok(())
}

/// Every place to pull a board, of the sample up to its crash; with that crash in it a schedule is refused.
fn before_release() -> Result<(), Refusal> {
    let cabinet = Cabinet::new(TABLE)?;
    let swept = cabinet.sweep(&Record::schedule(&records()[..10]))?;
    println!("before release\nquiet {}, held {}, open {}", swept.quiet, swept.held, swept.open);
    println!("refused {}", cabinet.sweep(&Record::schedule(&records())).unwrap_err().number());
    Ok(())
}

/// A board is pulled: what is on the bus until then, each word fed or with its sender and the place of its SEND, why each answer is what it is,
/// with how much unread and held back the stand-by begins, and of the whole cabinet which board is dead and which words are unread.
fn service_desk() -> Result<(), Refusal> {
    let (cabinet, schedule) = (Cabinet::new(TABLE)?, Record::schedule(&records()[..11]));
    let run = cabinet.run(&schedule)?;
    print!("service desk\non the bus");
    for on_the_bus in run.bus() {
        print!(" {}:{}", on_the_bus.channel, on_the_bus.word);
        match on_the_bus.sender {
            End::Outside => print!(" (fed)"),
            End::Process(p) => print!(" (process {p}, place {})", on_the_bus.place),
        }
    }
    print!("\nreasons");
    run.answers().for_each(|answer| print!(" {}", answer.reason.number()));
    println!(", the last of them {}", run.answers().last().unwrap().reason.words());
    for (p, end) in run.processes().enumerate() {
        let (board, place, unread, hold_back) = (end.board, end.place, end.unread, end.hold_back);
        println!(
            "process {p} on board {board} at place {place}, unread {unread}, hold-back {hold_back}, quiet {}",
            run.quiet as u8
        );
    }
    let view = cabinet.view(&schedule)?;
    print!("view 0, board 0 dead {}, inbox", view.boards()[0].is_dead() as u8);
    view.processes()[0].inbox().iter().for_each(|unread| print!(" {}:{}", unread.channel, unread.word));
    println!();
    Ok(())
}

/// The second carton is taken back, and a step is, and given again: which records stand, and what is on the bus by them.
fn programmer() -> Result<(), Refusal> {
    let (step, back) = (Record::step(0), Record::back());
    let schedule = Record::schedule(&[Record::feed(0, 5), Record::feed(0, 7), back, step, back, step]);
    let run = Cabinet::new(TABLE)?.run(&schedule)?;
    print!("programmer\nanswers");
    run.answers().for_each(|answer| print!(" {}", answer.code.number()));
    print!("\nstanding");
    run.standing().for_each(|(i, _)| print!(" {}", i + 1));
    print!("\non the bus");
    run.bus().for_each(|on_the_bus| print!(" {}:{}", on_the_bus.channel, on_the_bus.word));
    println!();
    Ok(())
}

/// A carton is fed to the label line, numbered and printed: its code and its serial are at the outlet. A first serial can be too high.
fn label_line() -> Result<(), Refusal> {
    let mut records = vec![Record::feed(SCANNER, 77)];
    records.extend([Record::step(0); 5]);
    records.extend([Record::carry(0); 2]);
    records.extend([Record::step(1); 3]);
    records.push(Record::carry(1));
    records.extend([Record::step(1); 3]);
    records.push(Record::carry(1));
    let schedule = Record::schedule(&records);
    let number = |first: u32| Cabinet::label_line(first).map_or_else(Refusal::number, |_| 0);
    println!("label line\ntables {} {}", number(4_294_957_295), number(4_294_957_296));
    let run = Cabinet::label_line(1000)?.run(&schedule)?;
    print!("outlet");
    labels(&run).iter().for_each(|label| print!(" {} {}", label.code, label.serial.unwrap()));
    println!("\nrefused {}", number(u32::MAX));
    Ok(())
}

/// The sample table from lists of numbers, in version 2 with a limit of 2, and taken apart again. Refused are a limit of 17, a limit in version
/// 1, and version 3.
fn planners_office() -> Result<(), Refusal> {
    let mut lists = Lists::of(&TABLE)?;
    lists.version = 2;
    lists.limits = vec![2];
    let table = lists.table()?;
    println!("planner's office\nwritten 0, {} bytes", table.len());
    let apart = Lists::of(&table)?;
    println!("taken apart 0, version {}, limit {}", apart.version, apart.limits[0]);
    print!("refused");
    for (version, limit) in [(2, 17), (1, 2), (3, 2)] {
        (lists.version, lists.limits[0]) = (version, limit);
        print!(" {}", lists.table().unwrap_err().number());
    }
    println!();
    Ok(())
}

fn main() -> Result<(), Box<dyn Error>> {
    check_abi()?;
    board_programmer()?;
    driver_bench()?;
    before_release()?;
    service_desk()?;
    programmer()?;
    label_line()?;
    planners_office()?;
    Ok(())
}
