//! `ks step`: sessions as they are stored, on samples, typed through a pipe; what it says where it can't; and that what is shown
//! is the same however it was come to, forward and back, in generated runs.
mod common;

use common::read;
use desk::explain::{Explaining, Given, Input};
use desk::form::answers::Outcome;
use desk::form::assemble::Step;
use desk::form::names::Names;
use desk::hex;
use desk::output::{wide, Style};
use desk::played::Played;
use desk::step::command::{parse, Command, Line, Where};
use desk::step::{help, on_screen, session, Front, Shown, Stays, Stepper, Went};
use desk::words::Spoken;
use kunzeastylus::{Code, Record, Table};
use outside::random::Random;
use outside::rules::generate::{encode_schedule, encode_table, schedule};
use outside::rules::going_back::going_back;
use outside::rules::repairs::{crash_after_crash, row};
use std::process::Output;

const SEED: u64 = 0xBF58_476D_1CE4_E5B9;

/// As in a pipe, with lines that are not folded.
const PIPE: Front = Front { asks: false, screen: false, style: Style { colour: false, width: 1000 } };

fn called(arguments: &[&str], input: &[u8]) -> Output {
    common::ks(&[&["step"], arguments].concat(), input)
}

fn stepper_of(input: Input) -> Stepper {
    let names = Names::made_up(&Table::of(&input.table).expect("a sound table"));
    Stepper::new(input, names).expect("a sound run")
}

fn stepper(name: &str) -> Stepper {
    stepper_of(Input::of(hex::bytes(read(&format!("samples/{name}.hex")).as_bytes()).expect("hex text")))
}

/// What a session of these lines prints.
fn printed(stepper: &mut Stepper, lines: &str, front: Front) -> String {
    let mut out = Vec::new();
    session(stepper, lines.as_bytes(), &mut out, front).expect("a buffer can be written");
    String::from_utf8(out).expect("text")
}

fn went(records: usize, anew: bool) -> Result<Went, Stays> {
    Ok(Went { records, anew, notes: Vec::new() })
}

fn stays(why: &str) -> Result<Went, Stays> {
    Err(Stays(why.to_string()))
}

/// Each session is stored with its lines, which are what stands behind `> `.
#[test]
fn sessions() {
    for (file, name) in [("back.hex", "back"), ("repaired.hex", "repaired"), ("release.cabinet", "release")] {
        let wanted = read(&format!("desk/tests/sessions/{name}.session"));
        let lines: String =
            wanted.lines().filter_map(|line| line.strip_prefix('>')).map(|line| line.trim().to_string() + "\n").collect();
        let ended = called(&[&format!("samples/{file}")], lines.as_bytes());
        assert_eq!((ended.status.code(), ended.stderr.len()), (Some(0), 0), "{name}");
        assert_eq!(String::from_utf8_lossy(&ended.stdout), wanted, "{name}");
    }
}

/// A terminal is asked for each line, and its lines are not printed once more; where the input ends, the prompt's line does too.
#[test]
fn asked() {
    let asks = Front { asks: true, ..PIPE };
    let text = printed(&mut stepper("sample"), "n\nq\nn\n", asks);
    assert_eq!((text.matches("\n> ").count(), text.ends_with("> "), text.contains("> n")), (2, true, false));
    assert!(printed(&mut stepper("sample"), "n\n", asks).ends_with("\n> \n"));
}

/// Colour is of words alone, and what is without it is the same.
#[test]
fn colours() {
    let lines = "r crash\nb\nn\nn\nr\n";
    let coloured = Front { style: Style { colour: true, width: 1000 }, ..PIPE };
    let (plain, coloured) = (printed(&mut stepper("repaired"), lines, PIPE), printed(&mut stepper("repaired"), lines, coloured));
    let mut pieces = coloured.split("\x1b[");
    let first = pieces.next().unwrap_or("").to_string();
    let without = first + &pieces.map(|piece| piece.split_once('m').expect("a colour").1).collect::<String>();
    assert!(coloured.len() > plain.len() && !plain.contains('\x1b'));
    assert_eq!(without, plain);
}

#[test]
fn lines() {
    let names = Names {
        cabinet: None,
        channels: vec!["scans".to_string(), "bus".to_string()],
        programs: vec!["echo".to_string(), "p1".to_string()],
        labels: vec![Vec::new(); 2],
    };
    let give = |records: &[Record]| Ok(Line::Do(Command::Give(Step::Records { records: records.to_vec(), expected: None })));
    let command = |command| Ok(Line::Do(command));
    let run = |to| Ok(Line::Do(Command::Run(to)));
    for (line, wanted) in [
        ("n", command(Command::Next)),
        (" next \r\n", command(Command::Next)),
        ("b", command(Command::Back)),
        ("back", command(Command::Back)),
        ("g 0", command(Command::Go(0))),
        ("go 12", command(Command::Go(12))),
        ("r", run(Where::End)),
        ("run crash", run(Where::Crash)),
        ("r refused", run(Where::Answer(Outcome::Refused))),
        ("r owes-sync", run(Where::Answer(Outcome::Code(Code::OwesSync)))),
        ("r answer 37", run(Where::Answer(Outcome::Code(Code::OwesSync)))),
        ("r scans", run(Where::Channel(0))),
        // What the cabinet calls its own comes before an answer's name.
        ("r bus", run(Where::Channel(1))),
        ("r answer bus", run(Where::Answer(Outcome::Code(Code::OnTheBus)))),
        ("r channel 1", run(Where::Channel(1))),
        ("r echo", run(Where::Process(0))),
        ("r program 1", run(Where::Process(1))),
        ("r process echo", run(Where::Process(0))),
        ("", Ok(Line::Again)),
        (" \t", Ok(Line::Again)),
        ("s", Ok(Line::Show)),
        ("bus", Ok(Line::Bus)),
        ("list", Ok(Line::List(None))),
        ("l p1", Ok(Line::List(Some(1)))),
        ("save a file ", Ok(Line::Save("a file".to_string()))),
        ("h", Ok(Line::Help)),
        ("q", Ok(Line::Quit)),
        ("step echo", give(&[Record::step(0)])),
        ("step 3", give(&[Record::step(3)])),
        ("sync p1 x2", give(&[Record::sync(1); 2])),
        ("carry 255", give(&[Record::carry(255)])),
        ("feed scans 501 502", give(&[Record::feed(0, 501), Record::feed(0, 502)])),
        ("feed 0 4294967295  # the most", give(&[Record::feed(0, u32::MAX)])),
        ("crash 1", give(&[Record::crash(1)])),
        ("return 1", give(&[Record::return_board(1)])),
        ("resync 1", give(&[Record::resync(1)])),
        ("back x2", give(&[Record::back(); 2])),
        ("move 9 2 3", give(&[Record { code: 9, a: 2, word: 3 }])),
        ("settle", command(Command::Give(Step::Settle { within: None }))),
    ] {
        assert_eq!(parse(line, &names), wanted, "{line:?}");
    }
    for (line, about) in [
        ("x", "x: no such command"),
        ("n 2", "n: so much is not wanted"),
        ("fly 1", "fly: no such command"),
        ("step", "found the end of the line, expected a program"),
        ("step nobody", "found `nobody`, expected a program: there are echo, p1"),
        ("step 256", "found `256`, expected a program's number, 0 to 255"),
        ("step -1", "found `-`, expected a word, a number"),
        ("crash echo", "found `echo`, expected a board's number"),
        ("feed 0", "found the end of the line, expected a word"),
        ("feed 0 4294967296", "found `4294967296`, expected a number up to 4294967295"),
        ("move 9", "found the end of the line, expected its a"),
        ("g", "go: a record's number is wanted"),
        ("g x", "x: a record's number is wanted"),
        ("save", "save: a file is wanted"),
        ("l nobody", "nobody: there is no such one, but echo, p1"),
        ("r program 2", "2: there is no such one, but echo, p1"),
        ("r channel scan", "scan: there is no such one, but scans, bus"),
        ("r 8", "8: say of what"),
        ("r answer 8", "8: no answer has this name or code"),
        ("r nowhere", "nowhere: no place to run to: there are crash, refused, an answer's name, scans, bus, echo, p1"),
        ("r to the end", "run: one place to run to is wanted"),
    ] {
        assert!(parse(line, &names).is_err_and(|wrong| wrong.starts_with(about)), "{line:?}: {:?}", parse(line, &names));
    }
}

#[test]
fn no_further() {
    let mut stepper = stepper("sample");
    let mut obey = |command: Command| stepper.obey(&command);
    let run = Command::Run;
    assert_eq!(obey(Command::Go(21)), stays("the file has no record 21: it ends with record 20"));
    assert_eq!(obey(run(Where::Answer(Outcome::Refused))), stays("no refusal is ahead"));
    assert_eq!(obey(run(Where::Answer(Outcome::Code(Code::Halted)))), stays("no answer 35 is ahead"));
    assert_eq!(obey(run(Where::Process(1))), stays("no record of 1 is ahead"));
    assert_eq!(obey(run(Where::Crash)), went(11, false));
    assert_eq!(obey(run(Where::Crash)), stays("no crash is ahead"));
    assert_eq!(obey(run(Where::Channel(0))), stays("no word on c0 is ahead"));
    assert_eq!(obey(run(Where::End)), went(9, false));
    assert_eq!(obey(run(Where::End)), stays("the file has no record 21: it ends with record 20"));
    assert_eq!(obey(Command::Next), stays("the file has no record 21: it ends with record 20"));
    assert_eq!(obey(Command::Go(20)), went(0, false));
    assert_eq!(obey(Command::Go(0)), went(0, true));
    assert_eq!(stepper.shown(), self::stepper("sample").shown());
}

/// A run has 10,000 records at most, and so has the list of those given.
#[test]
fn no_room() {
    let table = [0, 9, 1, 2, 1, 1, 255, 0, 0, 1, 0];
    let schedule = Record::schedule(&[Record::step(0); 10_000]);
    let mut stepper = stepper_of(Input { table: table.to_vec(), schedule });
    assert_eq!(stepper.obey(&Command::Go(9_999)), went(9_999, false));
    assert!(stepper.shown().would[0].is_some_and(|answer| answer.code == Code::Halted));
    assert_eq!(stepper.obey(&Command::Back), went(1, false));
    let one = Step::Records { records: vec![Record::step(0)], expected: None };
    for command in [Command::Next, Command::Back, Command::Run(Where::End), Command::Go(10_000), Command::Give(one)] {
        assert!(stepper.obey(&command).is_err_and(|Stays(why)| why.contains("at most 10000 records")), "{command:?}");
    }
    assert_eq!(stepper.shown().would, [None]);
    let halted = Command::Run(Where::Answer(Outcome::Code(Code::Halted)));
    assert_eq!(stepper.obey(&halted), stays("no answer 35 is ahead"));
    assert_eq!(stepper.obey(&Command::Go(3)), went(3, true));
    assert_eq!(stepper.shown().coming.map(|(number, ..)| number), Some(4));
}

/// What is shown beside the last record.
fn cabinet(shown: &Shown) -> Shown {
    Shown { last: None, ..shown.clone() }
}

/// Forward through a run, with a step back and forth again behind each record: what was taken back is the same the second time.
fn there_and_back(input: Input) {
    let played = Played::of(input.clone()).expect("a sound run");
    let (records, ran) = (&played.records, &played.ran);
    let (given, names) = (Given::of(records, &[]), Names::made_up(&played.table));
    let explaining = Explaining::new(&played, &given, Spoken::by(&names));
    let own_backs = records.contains(&Record::back());
    let mut stepper = stepper_of(input);
    let start = stepper.shown();
    let mut before = start.clone();
    for (i, record) in records.iter().enumerate() {
        stepper.obey(&Command::Next).expect("a further record");
        let shown = stepper.shown();
        let last = shown.last.clone().expect("a last record");
        assert_eq!((last.record, last.answer, last.name), (*record, ran.answers[i], (i + 1).to_string()));
        // It is said of it what is said of it in the whole run.
        assert_eq!(last.besides, explaining.beneath(i), "record {i}");
        // What a step would have answered before is what it answers.
        if record.code == 1 && record.word == 0 && usize::from(record.a) < before.would.len() {
            assert_eq!(before.would[usize::from(record.a)], Some(last.answer), "record {i}");
        }
        // A back of the file's own is not what the next one takes back.
        if !own_backs {
            stepper.obey(&Command::Back).expect("room for a back");
            let taken = stepper.shown();
            assert_eq!(cabinet(&taken), cabinet(&before), "behind record {i}");
            assert!(taken.last.is_some_and(|last| last.answer.code == Code::TakenBack && last.taken.is_some()));
            stepper.obey(&Command::Next).expect("the same record again");
            assert_eq!(stepper.shown(), shown, "record {i}");
        }
        before = shown;
    }
    assert_eq!((&before.bus, before.quiet), (&ran.bus, ran.quiet));
    stepper.obey(&Command::Go(0)).expect("the start");
    assert_eq!(stepper.shown(), start);
}

#[test]
fn forward_and_back() {
    let mut random = Random::new(SEED);
    for i in 0..18 {
        let table = row(&mut random);
        let records = match i % 3 {
            0 => crash_after_crash(&mut random, &table, 2, 60),
            _ => schedule(&mut random, &table, 60),
        };
        let records: Vec<_> = records.into_iter().filter(|record| record.kind != 8).take(120).collect();
        let back = going_back(&mut random, &table, records.clone(), 120);
        for records in [records, back] {
            there_and_back(Input { table: encode_table(&table), schedule: encode_schedule(&records) });
        }
    }
}

/// Whatever there is to see, a screen is a screen: as many lines as it has rows but the one of the prompt, none of them wider, with the last
/// record and the next one.
#[test]
fn one_screen() {
    let mut random = Random::new(!SEED);
    for _ in 0..12 {
        let table = row(&mut random);
        let records = schedule(&mut random, &table, 200);
        let mut stepper = stepper_of(Input { table: encode_table(&table), schedule: encode_schedule(&records) });
        let before = stepper.shown();
        stepper.obey(&Command::Go(records.len() - 1)).expect("a further record");
        let shown = stepper.shown();
        for (rows, width) in [(10, 60), (24, 80), (40, 100), (70, 132), (200, 300)] {
            let style = Style { colour: true, width };
            let text = on_screen(stepper.sheet(style), &shown, Some(&before), &["a note".to_string()], rows);
            assert!(text.starts_with("a note\n") && text.contains(&format!("\n{:>5}  ", records.len() - 1)), "{text}");
            assert!(text.contains(&format!("\n  next is record {}: ", records.len())), "{text}");
            assert_eq!(text.lines().count(), rows - 1, "{text}");
            assert!(text.lines().all(|line| wide(line) <= width), "{width}\n{text}");
        }
    }
}

/// What is typed is not written back with its control characters.
#[test]
fn no_control_sequences() {
    let text = printed(&mut stepper("sample"), "\x1b[2J\nfeed c0 \x07\nsave \x1bc\u{1}/\0\n", PIPE);
    assert!(
        text.contains("> \u{fffd}[2J\n\u{fffd}[2J: no such command") && !text.contains(|c: char| c.is_control() && c != '\n'),
        "{text}"
    );
}

/// Records of one's own stand between those of the file, and are taken back like them.
#[test]
fn typed() {
    let mut stepper = stepper("sample");
    let text = printed(&mut stepper, "g 2\nfeed c0 9\nmove 9 0 0\nb\nb\nb\nn\n", PIPE);
    let answers = ["  on the bus: ", "refused ", "took back "];
    let is_record = |line: &&str| line.starts_with("   ") && answers.iter().any(|answer| line.contains(answer));
    let records: Vec<&str> = text.lines().filter(is_record).filter(|line| !line.contains("a step would")).collect();
    let wanted = [
        "    2  feed c0 7                               on the bus: fed (c0, word 7, from outside)",
        "   t1  feed c0 9                               on the bus: fed (c0, word 9, from outside)",
        "   t2  move 9 0 0                              refused 32, bad record: no such move",
        "    b  back                                    took back record t2",
        "    b  back                                    took back record t1",
        "    b  back                                    took back record 2",
        "    2  feed c0 7                               on the bus: fed (c0, word 7, from outside)",
    ];
    assert_eq!(records, wanted);
}

/// What was saved has, as a schedule on the same table, the answers that were shown. A file that was there before stays as it is.
#[test]
fn saved() {
    let folder = std::env::temp_dir().join(format!("ks-step-{}", std::process::id()));
    std::fs::create_dir_all(&folder).expect("a folder");
    let file = folder.join("what was done");
    let name = file.to_str().expect("text");
    let cabinet = "samples/release.cabinet";
    let lines = format!("g 3\nb\nfeed scans 7\nsave {name}\nstep numbering x2\ncrash 0\nsave {name}\n");
    let ended = common::ks_wide("1000", &["step", cabinet], lines.as_bytes());
    let said = String::from_utf8_lossy(&ended.stdout);
    assert!(said.contains(&format!("saved in {name}: a schedule of 5 records\n")), "{said}");
    assert!(said.contains(&format!("saved in {name}: a schedule of 8 records\n")), "{said}");
    let taken = format!("{:<32}# taken back", "    step numbering");
    let wanted = ["schedule", "    feed scans 501", "    feed scans 502", &taken, "    back", "    feed scans 7"];
    let wanted = [&wanted[..], &["    step numbering x2", "    crash 0", ""]].concat().join("\n");
    assert_eq!(std::fs::read_to_string(&file).expect("a file"), wanted);
    let bus = common::printed(&["run", "--bus", cabinet, name], b"");
    assert_eq!(bus, "scans 501 outside 0\nscans 502 outside 0\nscans 7 outside 0\n");
    // Another session doesn't write over it, and a folder is no file.
    let before = std::fs::read(&file).expect("a file");
    let folder_name = folder.join("none").join("file");
    let lines = format!("n\nsave {name}\nsave {}\n", folder_name.display());
    let ended = common::ks_wide("1000", &["step", cabinet], lines.as_bytes());
    let said = String::from_utf8_lossy(&ended.stdout);
    assert!(said.contains("is there already, and stays as it is"), "{said}");
    assert!(said.contains("file can't be written: "), "{said}");
    assert_eq!(std::fs::read(&file).expect("a file"), before);
    std::fs::remove_dir_all(&folder).expect("a folder");
}

#[test]
fn complaints() {
    let complains = |arguments: &[&str], code: i32, shown: &str, about: &str| {
        let ended = called(arguments, b"n\n");
        let (out, said) = (String::from_utf8_lossy(&ended.stdout), String::from_utf8_lossy(&ended.stderr));
        assert!(
            ended.status.code() == Some(code) && out == shown && said.contains(about),
            "{arguments:?} prints {out} and says {said}"
        );
    };
    let sample = "samples/sample.hex";
    complains(&[], 2, "", "ks step: a file is wanted");
    complains(&["--what", sample], 2, "", "ks step: no option --what");
    complains(&["-"], 2, "", "standard input is where the commands come from");
    complains(&["missing"], 2, "", "missing: no such file");
    complains(&["--as=bytes", sample], 3, "refused 1\n", "byte 0: the length field says 8992");
    // The end of the input is an end, and so is q.
    for lines in ["", "n", "q\nn\n"] {
        assert_eq!(called(&[sample], lines.as_bytes()).status.code(), Some(0), "{lines:?}");
    }
    assert!(printed(&mut stepper("sample"), "h\n", PIPE).contains(help()));
}
