//! `ks explain`: four samples in words, as stored beside them; boards pulled and returned, processes resynced, also where records are taken
//! back; which lines there are; what is said where it can't; and that the places it follows are those of the
//! report, after every record of generated runs.
mod common;

use common::{explained, sample};
use desk::explain::{Asked, Input, Only, Put};
use desk::follow::{Followed, Spot};
use desk::hex;
use desk::output::PLAIN;
use kunzeastylus::{run, Buffers, BusWord, End, Move, Operation, Record, Table};
use outside::random::Random;
use outside::rules::generate::{encode_schedule, encode_table, schedule, table};
use outside::rules::going_back::going_back;
use outside::rules::lent::Lent;
use outside::rules::loops::loops;

const SEED: u64 = 0x94D0_49BB_1331_11EB;

fn input(name: &str) -> Input {
    Input::of(hex::bytes(sample(&format!("{name}.hex")).as_bytes()).expect("hex text"))
}

fn printed(arguments: &[&str], input: &[u8]) -> String {
    common::printed(&[&["explain"], arguments].concat(), input)
}

fn complains(arguments: &[&str], input: &[u8], code: i32, shown: &str, about: &str) {
    common::complains(&[&["explain"], arguments].concat(), input, code, shown, about);
}

#[test]
fn samples() {
    for name in ["lost_queue", "held", "repaired", "back"] {
        let words = sample(&format!("{name}.words"));
        assert_eq!(PLAIN.fold(&explained(&input(name), &[], Asked::default())), words, "{name}");
        assert_eq!(printed(&[&format!("samples/{name}.hex")], &[]), words, "{name}");
    }
}

/// The lines of what is printed, not folded, and parted by white space alone.
fn lines(arguments: &[&str]) -> Vec<String> {
    let text = common::printed_wide(&[&["explain"], arguments].concat(), &[]);
    text.lines().map(|line| line.split_whitespace().collect::<Vec<_>>().join(" ")).collect()
}

/// The lines of records alone: neither what stands beneath them, nor the ends.
fn records(arguments: &[&str]) -> Vec<String> {
    own(&common::printed_wide(&[&["explain"], arguments].concat(), &[])).into_iter().map(squeezed).collect()
}

fn own(text: &str) -> Vec<&str> {
    let records = text.lines().skip(1).take_while(|line| !line.starts_with("board "));
    records.filter(|line| !line.starts_with("       ")).collect()
}

fn squeezed(line: &str) -> String {
    line.split_whitespace().collect::<Vec<_>>().join(" ")
}

#[test]
fn some_lines() {
    let whole = records(&["samples/lost_queue.hex"]);
    let asked = |arguments: &[&str]| records(&[arguments, &["samples/lost_queue.hex"]].concat());
    for (arguments, range) in [
        (&["--from", "3", "--to", "5"][..], 2..5),
        (&["--to", "1"], 0..1),
        (&["--from", "15"], 14..15),
        (&["--from", "16"], 15..15),
        (&["--to", "99999", "--from", "14"], 13..15),
    ] {
        assert_eq!(asked(arguments), whole[range], "{arguments:?}");
    }
    let numbers = |arguments: &[&str]| -> String {
        asked(arguments).iter().map(|line| line.split(' ').next().unwrap_or_default()).collect::<Vec<_>>().join(" ")
    };
    // Of process 0 also the crash that moved it, and the words that it was fed and sent; of board 0 the records of whom it runs.
    for (only, wanted) in [
        (&["--only", "refused"][..], "9 15"),
        (&["--only", "bus"], "1 5 14"),
        (&["--only", "process", "0"], "1 2 3 4 5 8 10 11 15"),
        (&["--only=process 0"], "1 2 3 4 5 8 10 11 15"),
        (&["--only", "channel", "1"], "3 5 6 11 12"),
        (&["--only", "board", "0"], "2 3 4 5 6 7 8 9"),
        (&["--only", "bus", "--from", "2", "--to", "13"], "5"),
    ] {
        assert_eq!(numbers(only), wanted, "{only:?}");
    }
    let named = records(&["--only", "channel", "outlet", "--to", "20", "samples/release.cabinet"]);
    assert_eq!(
        named,
        [
            "14 step printer, SEND outlet queued (outlet, word 501) from register 0",
            "16 carry board 1 on the bus: carried (outlet, word 501, from printer, place 2)"
        ]
    );
}

#[test]
fn pulled() {
    let pull = |at: &str, more: &[&str]| records(&[&["--pull", at], more, &["samples/sample.hex"]].concat());
    // The first record of the run, between two of them, and behind the last. The records keep their numbers.
    let first = pull("0@1", &["--to", "3"]);
    assert_eq!(
        first[..2],
        ["pull crash board 0 done: board crashed", "1 feed channel 0, word 5 on the bus: fed (channel 0, word 5, from outside)"]
    );
    let between = lines(&["--pull", "1@6", "--from", "6", "--to", "6", "samples/sample.hex"]);
    assert_eq!(
        between[..6],
        [
            "21 records on 2 boards with 1 process and 2 channels",
            "pull crash board 1 done: board crashed",
            "nothing ran there",
            "its queue was empty: nothing is lost",
            "no backup now: process 0",
            "6 carry board 0 on the bus: carried (channel 1, word 5, from process 0, place 2)",
        ]
    );
}

/// A pull that is refused is said and ends with 4, whatever is shown.
#[test]
fn pulled_in_vain() {
    let said = |arguments: &[&str], about: &[&str]| {
        let ended = common::ks_wide("1000", &[&["explain"], arguments, &["samples/sample.hex"]].concat(), &[]);
        let text = String::from_utf8_lossy(&ended.stderr);
        assert_eq!((ended.status.code(), text.lines().collect::<Vec<_>>()), (Some(4), about.to_vec()), "{arguments:?}");
        String::from_utf8_lossy(&ended.stdout).lines().skip(1).take(2).map(squeezed).collect::<Vec<_>>()
    };
    let help = "process 0 has no backup: return board 0, then resync process 0 and carry that";
    let refused = &format!("ks explain: --pull 1@21: refused 44, some process has no backup; {help}")[..];
    let last = said(&["--pull", "1@21", "--from", "20"], &[refused]);
    assert_eq!(last[0], "20 step process 0, JUMP to place 0 by register 0 done: calculated, jumped to place 0");
    assert_eq!(last[1], "pull crash board 1 refused 44, some process has no backup");
    said(&["--pull", "1@21", "--to", "1"], &[refused]);
    said(&["--pull", "1@21", "--summary"], &[refused]);
    // No such board is the library's to say.
    said(&["--pull", "2@1"], &["ks explain: --pull 2@1: refused 33, not in this table: the board"]);
    said(
        &["--return", "1@3", "--resync", "0@3"],
        &[
            "ks explain: --return 1@3: refused 48, board live: only a dead one returns",
            "ks explain: --resync 0@3: refused 50, has a backup, or its other board is dead; it has its backup, on board 1",
        ],
    );
}

/// As often as wanted, before one record in the order of crash, return and resync; and then on until quiet.
#[test]
fn pulled_and_returned() {
    let text = lines(&["--resync", "0@7", "--return", "1@6", "--pull", "1@6", "--settle", "--from", "6", "samples/sample.hex"]);
    let at = |begin: &str| text.iter().position(|line| line.starts_with(begin)).unwrap_or_else(|| panic!("{begin}: {text:?}"));
    assert!(at("pull crash board 1 done: board crashed") < at("put return board 1 done: board returned"));
    assert!(at("put return") < at("6 carry board 0") && at("6 carry") < at("put resync process 0 done: resync issued"));
    assert!(at("20 step") < at("s1 ") && at("quiet: ") == text.len() - 1);
}

/// A back may take back the crash that is put in, and then takes back another record than without it.
#[test]
fn pulled_and_taken_back() {
    let pull = |at: &str| records(&["--pull", at, "--from", "5", "--to", "7", "samples/back.hex"]);
    let carried = "carry board 0 on the bus: carried (channel 1, word 5, from process 0, place 2)";
    let queued = "5 step process 0, SEND channel 1 queued (channel 1, word 5) from register 1";
    assert_eq!(
        pull("1@7")[..4],
        [queued, &format!("6 {carried}"), "pull~ crash board 1 done: board crashed", "7 back took back record pull"]
    );
    assert_eq!(
        pull("1@6")[..4],
        [queued, "pull crash board 1 done: board crashed", &format!("6~ {carried}"), "7 back took back record 6"]
    );
}

/// 10,000 records are a page, and what is asked for outright is shown.
#[test]
fn long() {
    let round = [Record::feed(0, 1), Record::step(0), Record::sync(0), Record::carry(0)];
    let records: Vec<Record> = round.into_iter().cycle().take(10_000).collect();
    let input = Input { table: input("sample").table, schedule: Record::schedule(&records) };
    let page = PLAIN.fold(&explained(&input, &[], Asked::default()));
    assert!(page.lines().count() < 50 && page.contains("10000 records make "), "{page}");
    let summary = PLAIN.fold(&explained(&input, &[], Asked { summary: true, ..Asked::default() }));
    assert!(summary.lines().skip(1).eq(page.lines().skip(3)), "{page}");
    let lines = |asked: Asked| explained(&input, &[], asked).lines().filter(|line| line.contains("  feed channel 0")).count();
    assert_eq!(lines(Asked { all: true, ..Asked::default() }), 2_500);
    assert_eq!(lines(Asked { from: 1_001, to: 3_000, ..Asked::default() }), 500);
    let refused = lines(Asked { only: Some(Only::Refused), ..Asked::default() });
    assert!(0 < refused && refused < 2_500, "{refused}");
}

#[test]
fn complaints() {
    let sample = "samples/sample.hex";
    complains(&[], &[], 2, "", "ks explain: a file is wanted, or - for standard input");
    complains(&["--what", sample], &[], 2, "", "ks explain: no option --what: there are --from, --to, --only");
    complains(&["--to"], &[], 2, "", "ks explain: --to wants a value: --to=N");
    complains(&["--from", "1", "--from", "2", sample], &[], 2, "", "ks explain: --from is given twice");
    complains(&["--from", "0", sample], &[], 2, "", "--from 0: a number from 1 on is wanted");
    complains(&["--to", "x", sample], &[], 2, "", "--to x: a number from 1 on is wanted");
    complains(&["--from", "9", "--to", "3", sample], &[], 2, "", "--from 9 is behind --to 3");
    for pull in ["0", "0@", "@1", "0@0", "256@1", "-1@1", "0@1@2"] {
        complains(&["--pull", pull, sample], &[], 2, "", &format!("--pull {pull}: BOARD@N is wanted"));
    }
    complains(&["--resync", "0", sample], &[], 2, "", "--resync 0: PROCESS@N is wanted");
    complains(&["--only", "what", sample], &[], 2, "", "--only what: refused, bus, process N, channel K or board B is wanted");
    complains(&["--only", "process", "1", sample], &[], 2, "", "--only process 1: the table has 1 of them, from 0 on");
    complains(&["--only", "board", "x", sample], &[], 2, "", "--only board x: a board's number is wanted");
    complains(
        &["--only", "channel", "x", sample],
        &[],
        2,
        "",
        "--only channel x: found `x`, expected a channel: there are c0, c1",
    );
    complains(&["--pull", "0@22", sample], &[], 2, "", "--pull 0@22: the schedule has 20 records, so N is 1 to 21");
    complains(&["missing"], &[], 2, "", "missing: no such file");
    complains(&["-"], b"00 0", 2, "", "ks explain: standard input:1: found `00 0`, expected pairs of hex digits");
    complains(&["-"], &[], 3, "refused 1\n", "standard input:1: the file is empty");
    complains(&["--as", "bytes", sample], &[], 3, "refused 1\n", "samples/sample.hex: byte 0: the length field says 8992");
    complains(
        &["-"],
        b"00 09 01 02 01 01 FF 00 00 01 00",
        3,
        "refused 9\n",
        "standard input:1: there is no schedule, and at least 3 bytes are wanted",
    );
    let limited = b"00 0A 02 02 01 01 FF 00 00 01 11 00";
    complains(&["-"], limited, 3, "refused 47\n", "standard input:1: process 0: its limit is 17, and 1 to 16 are wanted");
    // 10,000 records have no room for a crash.
    let most = [&[0, 9, 1, 2, 1, 1, 255, 0, 0, 1, 0][..], &Record::schedule(&[Record::step(0); 10_000])].concat();
    complains(&["--pull", "0@1", "-"], &most, 3, "refused 9\n", "the schedule has 10001 records, and 10000 are the most");
    let folded = common::printed_wide(&["explain", "-"], &most);
    assert!(folded.lines().nth(1).is_some_and(|line| line.ends_with("refused 35, halted (10000 times, up to record 10000)")));
    assert_eq!(folded.lines().count(), 1 + 1 + 2 + 3 + 1);
    assert_eq!(common::printed_wide(&["explain", "--all", "-"], &most).lines().count(), 1 + 10_000 + 2 + 3 + 1);
}

/// The two bytes that a word on the bus stands for, or that there was none. Where it was sent, a SEND to its channel stands at its place.
fn origin(table: &Table, bus: Option<BusWord>) -> [u8; 2] {
    match bus {
        Some(BusWord { channel, sender: End::Process(p), place, .. }) => {
            let stands = table.processes[p as usize].program[usize::from(place)];
            assert!(matches!(stands, Operation::Send { channel: to, .. } if to == channel), "{stands:?} at {place}");
            [p, place]
        }
        Some(on_the_bus) => [255, on_the_bus.place],
        None => [255, 255],
    }
}

/// A schedule and its records one by one: what is followed is what the report of the run up to there says.
fn follows(table: &[u8], schedule: &[u8]) {
    let decoded = Table::of(table).expect("a sound table");
    let mut followed = Followed::new(&decoded);
    let report = |records: usize| -> Vec<Spot> {
        let mut beginning = schedule[..3 + 6 * records].to_vec();
        beginning.splice(..2, ((1 + 6 * records) as u16).to_be_bytes());
        let mut buffers = Buffers::for_run(table, &beginning);
        let run = run(table, &beginning, &mut buffers).expect("a sound run");
        run.processes().map(Spot::from).collect()
    };
    let records = schedule.len() / 6;
    let mut buffers = Buffers::for_run(table, schedule);
    let whole = run(table, schedule, &mut buffers).expect("a sound run");
    let simulated = outside::rules::run::run(table, schedule, Lent::needed(records, 16)).lent;
    assert_eq!(whole.answers().map(|answer| answer.reason.number()).collect::<Vec<_>>(), simulated.reasons);
    assert_eq!(whole.answers().flat_map(|answer| origin(&decoded, answer.bus)).collect::<Vec<_>>(), simulated.origins);
    for (i, (record, answer)) in schedule[3..].chunks_exact(6).zip(whole.answers()).enumerate() {
        followed.record(Move::try_from(record[0]).ok(), record[1], answer, || report(i + 1));
        assert_eq!(followed.spots(), report(i + 1), "after record {}: {table:02X?} {schedule:02X?}", i + 1);
    }
    // The same in words, with each board pulled somewhere.
    for board in 0..table[3] {
        let input = Input { table: table.to_vec(), schedule: schedule.to_vec() };
        let pull = Put { kind: Move::Crash, a: board, before: 1 + usize::from(board) * 7 % (records + 1) };
        let text = explained(&input, &[pull], Asked { all: true, ..Asked::default() });
        assert_eq!(own(&text).len(), records + 1, "{text}");
    }
}

#[test]
fn followed_as_reported() {
    let mut random = Random::new(SEED);
    for i in 0..150 {
        let table = if i % 3 == 0 { loops(&mut random) } else { table(&mut random) };
        let records = random.pick(&[0, 1, 20, 60, 150]);
        let mut schedule = schedule(&mut random, &table, records);
        if i % 2 == 0 {
            schedule = going_back(&mut random, &table, schedule, 300);
        }
        follows(&encode_table(&table), &encode_schedule(&schedule));
    }
}
