//! `ks sweep`: the counts, the map and the lists of a sample, as stored; that the map is what `ks explain --pull` says at every place of two
//! samples; how it is folded; and what is said where there is none.
mod common;

use common::sample;
use desk::explain::{Asked, Input, Pull, Put};
use desk::hex;
use desk::sweep::{sweep, Ending, Map};
use kunzeastylus::{Move, Record, Sweep};

const SWEPT: &str = "samples/swept.hex";

/// A process with no instructions on two of three boards.
const IDLE: [u8; 11] = [0, 9, 1, 3, 1, 1, 255, 0, 0, 1, 0];

fn printed(arguments: &[&str], input: &[u8]) -> String {
    common::printed(&[&["sweep"], arguments].concat(), input)
}

fn complains(arguments: &[&str], input: &[u8], code: i32, shown: &str, about: &str) {
    common::complains(&[&["sweep"], arguments].concat(), input, code, shown, about);
}

fn input(name: &str) -> Input {
    Input::of(hex::bytes(sample(&format!("{name}.hex")).as_bytes()).expect("hex text"))
}

fn map(input: &Input) -> Map {
    Map::of(input, sweep(input).expect("a sweep"), |_| ())
}

/// An idle table with this schedule behind it.
fn idle(records: &[Record]) -> Vec<u8> {
    [&IDLE[..], &Record::schedule(records)].concat()
}

#[test]
fn stored() {
    let wanted = sample("swept.map");
    assert_eq!(printed(&["--map", SWEPT], &[]), wanted);
    let (counts, _) = wanted.split_once("\n\n").expect("counts and a map");
    assert_eq!(printed(&[SWEPT], &[]).trim_end(), counts);
}

#[test]
fn lists() {
    let input = input("swept");
    let mut all: Vec<String> = Vec::new();
    for (ending, count) in Ending::ALL.into_iter().zip([81, 14, 16]) {
        let list = printed(&["--list", ending.name(), SWEPT], &[]);
        assert_eq!((list.lines().count(), &list), (count, &map(&input).list(ending)), "{}", ending.name());
        all.extend(list.lines().map(str::to_string));
    }
    all.sort();
    let mut places: Vec<String> = (0..3).flat_map(|board| (1..=37).map(move |n| format!("{board}@{n}"))).collect();
    places.sort();
    assert_eq!(all, places);
}

/// At every place of two samples the map has what the run with the board pulled there says in words.
#[test]
fn as_explained() {
    for name in ["swept", "held"] {
        let input = input(name);
        let map = map(&input);
        let mut places = 0;
        for ending in Ending::ALL {
            for pull in map.places(ending) {
                let put = Put { kind: Move::Crash, a: pull.board, before: pull.before };
                let text = common::explained(&input, &[put], Asked::default());
                let quiet = text.lines().last().expect("an end").starts_with("quiet");
                let wanted = match ending {
                    Ending::Quiet => (true, false),
                    Ending::Held => (false, true),
                    Ending::Open => (false, false),
                };
                assert_eq!((quiet, text.contains("; holds back its next")), wanted, "{name}: {pull:?}");
                assert!(text.contains(&format!("crash board {}", pull.board)) && text.contains("done: board crashed"));
                places += 1;
            }
        }
        assert_eq!(places, usize::from(input.table[3]) * (input.schedule.len() / 6 + 1), "{name}");
    }
    // A line of the list as it can be handed on.
    let open = printed(&["--list", "open", SWEPT], &[]);
    let place = open.lines().next().expect("a place");
    let explained = common::printed(&["explain", "--pull", place, SWEPT], &[]);
    assert!(
        explained.lines().last().is_some_and(|line| line.starts_with("not quiet: ") && line.contains(" could go on")),
        "{explained}"
    );
}

#[test]
fn folded() {
    let map = map(&input("swept"));
    let wide = map.text(80);
    for (width, folds) in [(20, 4), (39, 2), (40, 2), (49, 2), (50, 1), (1_000, 1)] {
        let text = map.text(width);
        let blocks: Vec<Vec<&str>> = text.split("\n\n").skip(1).map(|block| block.lines().collect()).collect();
        assert_eq!(blocks.len(), folds, "{width} columns");
        assert!(blocks.iter().flatten().all(|line| line.len() <= width.max(20)), "{width} columns:\n{text}");
        // The lines of each board put together again, and the numbers above them.
        for line in 0..4 {
            let whole: String = blocks.iter().map(|block| format!("{:<1$}", &block[line][10..], block[1].len() - 10)).collect();
            assert_eq!(whole.trim_end(), &wide.lines().nth(2 + line).expect("a line")[10..], "{width} columns, line {line}");
        }
    }
    assert_eq!(printed(&["--map", "--width", "40", SWEPT], &[]).split_once("\n\n").expect("counts").1, map.text(40));
}

#[test]
fn required() {
    let counts = printed(&[SWEPT], &[]);
    complains(&["--require-quiet", SWEPT], &[], 4, &counts, "ks sweep: samples/swept.hex: 30 of 111 runs end unquiet");
    let all_quiet = idle(&[Record::step(0)]);
    assert!(printed(&["--require-quiet", "-"], &all_quiet).contains("6 runs: each board pulled at each of 2 places"));
    assert_eq!(printed(&["--require-quiet", "--list", "open", "-"], &all_quiet), "");
}

#[test]
fn complaints() {
    for (arguments, about) in [
        (&[][..], "a file is wanted"),
        (&[SWEPT, SWEPT, SWEPT], "a file, or a table and a schedule, are wanted, and 3 files are named"),
        (&["--what", SWEPT], "no option --what"),
        (&["--map", "--list", "open", SWEPT], "--map and --list: one of them is wanted"),
        (&["--list"], "--list wants a value: --list=ENDING"),
    ] {
        complains(arguments, &[], 2, "", about);
    }
    complains(&["--list", "loud", SWEPT], &[], 2, "", "--list loud: one of quiet, held and open is wanted");
    complains(&["--map", "--width", "19", SWEPT], &[], 2, "", "--width 19: a number from 20 on is wanted");
    complains(&["--width", "99", SWEPT], &[], 2, "", "--width is of --map");
    complains(&["missing"], &[], 2, "", "missing: no such file");
    complains(&["-"], &[], 3, "refused 1\n", "standard input:1: the file is empty");
    complains(&["-"], &IDLE, 3, "refused 9\n", "standard input: byte 11: there is no schedule, and at least 3 bytes are wanted");
    // 52: where, and what to do.
    let crash = "record 11 is a crash; a sweep puts its own at every place, so leave out all of them";
    complains(&["samples/sample.hex"], &[], 3, "refused 52\n", &format!("samples/sample.hex:26: {crash}"));
    let back = "record 2 is a back, which could take back the crash; leave out all of them and what they take back";
    complains(&["-"], &idle(&[Record::step(0), Record::back()]), 3, "refused 52\n", back);
    let both = idle(&[Record::crash(0), Record { a: 1, ..Record::back() }]);
    complains(&["-"], &both, 3, "refused 52\n", back);
    let long = idle(&[Record::step(0); 501]);
    let parts = "the schedule has 501 records and a sweep takes at most 500, so sweep parts of it";
    complains(&["-"], &long, 3, "refused 52\n", parts);
    complains(&["-"], &idle(&[Record::crash(0); 501]), 3, "refused 52\n", parts);
    assert!(printed(&["-"], &idle(&[Record::step(0); 500])).contains("1503 runs"));
    // Each ending is explained.
    let help = printed(&["--help"], &[]);
    let meaning = help.split_once("what an ending means:\n").expect("what the endings mean").1;
    for (start, words) in
        [("  quiet  ", "nothing is left to do"), ("  hold-back left  ", "64 further steps"), ("  none left  ", "stands still")]
    {
        assert!(meaning.split_once(start).is_some_and(|(_, rest)| rest.contains(words)), "{start}: {help}");
    }
}

/// No records: one place.
#[test]
fn nothing_to_run() {
    let bytes = idle(&[]);
    let input = Input::of(bytes.clone());
    assert_eq!(sweep(&input), Ok(Sweep { quiet: 3, held: 0, open: 0 }));
    assert_eq!(map(&input).places(Ending::Quiet).next(), Some(Pull { board: 0, before: 1 }));
    assert!(printed(&["--map", "-"], &bytes).ends_with("before    1\nboard 0   .\nboard 1   .\nboard 2   .\n"));
    assert_eq!(sweep(&Input::of(IDLE.to_vec())).map_err(|refusal| refusal.number()), Err(9));
    assert_eq!(sweep(&Input::of(idle(&[Record::crash(9)]))).map_err(|refusal| refusal.number()), Err(52));
}
