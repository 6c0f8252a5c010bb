//! How `ks` ends: every exit code, a full disk, a reader that has gone away, and that nothing is coloured or wide in a pipe.
mod common;

use common::{complains, ks, ks_wide, printed, ROOT};
use std::fs::{File, OpenOptions};
use std::io::Read;
use std::process::{Command, Stdio};

const FILES: &str = "desk/tests/golden/files";

/// The codes, 1 aside.
#[test]
fn codes() {
    let code = |arguments: &[&str]| ks(arguments, &[]).status.code();
    for (arguments, wanted) in [
        (&["--help"][..], 0),
        (&["--version"], 0),
        (&["help", "run"], 0),
        (&["check", "samples/release.cabinet"], 0),
        (&["run", "--strict", "samples/sample.hex"], 0),
        (&[], 2),
        (&["wat"], 2),
        (&["help", "wat"], 2),
        (&["run", "missing"], 2),
        (&["check", &format!("{FILES}/wrong.cabinet")], 2),
        (&["run", &format!("{FILES}/refused.cabinet")], 3),
        (&["sweep", "samples/sample.hex"], 3),
        (&["check", &format!("{FILES}/refused.cabinet"), &format!("{FILES}/failing.cabinet")], 3),
        (&["check", &format!("{FILES}/failing.cabinet")], 4),
        (&["run", &format!("{FILES}/failing.cabinet")], 4),
        (&["run", "--strict", "samples/held.hex"], 4),
        (&["hex", &format!("{FILES}/stands_still.cabinet")], 4),
        (&["compare", "samples/sample.hex", "samples/held.hex"], 4),
        (&["sweep", "--require-quiet", "samples/swept.hex"], 4),
    ] {
        assert_eq!(code(arguments), Some(wanted), "{arguments:?}");
    }
}

/// 1: what was printed could not be written, and that is said, once; where the reader has gone away it isn't.
#[test]
fn unwritten() {
    let commands: [&[&str]; 8] = [
        &["--help"],
        &["run", "samples/sample.hex"],
        &["run", "--json", "samples/sample.hex"],
        &["check", "samples/release.cabinet"],
        &["hex", "samples/sample.hex"],
        &["words", "samples/sample.hex"],
        &["explain", "samples/sample.hex"],
        &["run", "desk/tests/golden/files/refused.cabinet"],
    ];
    for arguments in commands {
        let full = OpenOptions::new().write(true).open("/dev/full").expect("/dev/full");
        let ended = Command::new(env!("CARGO_BIN_EXE_ks")).args(arguments).current_dir(ROOT).stdout(full).output().expect("ks");
        let said = String::from_utf8_lossy(&ended.stderr);
        assert_eq!(ended.status.code(), Some(1), "{arguments:?}: {said}");
        assert_eq!(said.matches("can't be written: No space left").count(), 1, "{arguments:?}: {said}");
    }
    // More than a pipe holds, and a reader that takes some of it.
    let mut gone = Command::new(env!("CARGO_BIN_EXE_ks"))
        .args(["words", "--expect", "-"])
        .current_dir(ROOT)
        .stdin(File::open(format!("{ROOT}/samples/year.cabinet")).expect("a sample"))
        .stdout(Stdio::piped())
        .stderr(Stdio::piped())
        .spawn()
        .expect("ks");
    let mut some = [0; 10];
    let mut out = gone.stdout.take().expect("a pipe");
    out.read_exact(&mut some).expect("some of it");
    drop(out);
    let ended = gone.wait_with_output().expect("its end");
    // It may have written all before the reader went.
    assert!(matches!(ended.status.code(), Some(0 | 1)) && ended.stderr.is_empty(), "{ended:?}");
}

/// 1 too: the bench program isn't there. What needs no page needs no such program.
#[test]
fn no_bench_program() {
    let run = |arguments: &[&str]| {
        let mut program = Command::new(env!("CARGO_BIN_EXE_ks"));
        program.args(arguments).env("KS_BENCH", "/no/such/program").current_dir(ROOT).output().expect("ks")
    };
    let ended = run(&["run", "samples/sample.hex"]);
    let said = String::from_utf8_lossy(&ended.stderr);
    assert_eq!((ended.status.code(), ended.stdout.len()), (Some(1), 0));
    assert!(said.starts_with("ks run: the bench program, /no/such/program: "), "{said}");
    assert_eq!(run(&["run", "--json", "samples/sample.hex"]).status.code(), Some(0));
}

/// A reader that has gone away before anything is written.
#[test]
fn closed_pipe() {
    let (reader, writer) = std::io::pipe().expect("a pipe");
    drop(reader);
    let ended = Command::new(env!("CARGO_BIN_EXE_ks"))
        .args(["run", "samples/sample.hex"])
        .current_dir(ROOT)
        .stdout(writer)
        .output()
        .expect("ks");
    assert_eq!((ended.status.code(), ended.stderr.len()), (Some(1), 0));
}

#[test]
fn plain_in_a_pipe() {
    for arguments in [&["check", "samples/release.cabinet", "missing"][..], &["explain", "samples/repaired.hex"], &["--help"]] {
        let ended = ks(arguments, &[]);
        let text = String::from_utf8([ended.stdout, ended.stderr].concat()).expect("text");
        assert!(!text.contains('\x1b') && text.lines().all(|line| line.chars().count() <= 100), "{text}");
        let narrow = ks_wide("40", arguments, &[]);
        let text = String::from_utf8([narrow.stdout, narrow.stderr].concat()).expect("text");
        let whole = |line: &str| !line.trim().contains(' ');
        assert!(text.lines().all(|line| line.chars().count() <= 40 || whole(line)), "{text}");
    }
}

/// `--`, `-` and `--option=value`.
#[test]
fn arguments() {
    let sample = common::sample("sample.hex");
    let wanted = printed(&["run", "samples/sample.hex"], &[]);
    assert_eq!(wanted, common::sample("sample.page"));
    assert_eq!(printed(&["run", "-"], sample.as_bytes()), wanted);
    assert_eq!(printed(&["run", "--as=hex", "--", "samples/sample.hex"], &[]), wanted);
    assert_eq!(printed(&["run", "--as", "hex", "-"], sample.as_bytes()), wanted);
    complains(&["run", "--", "--json"], &[], 2, "", "ks run: --json: no such file");
}

/// JUnit's file, and that many files are told in the order given.
#[test]
fn many_files() {
    let folder = std::env::temp_dir().join(format!("ks-exits-{}", std::process::id()));
    std::fs::create_dir_all(&folder).expect("a temporary folder");
    let mut files = Vec::new();
    for i in 0..100 {
        let file = folder.join(format!("{i}.cabinet")).to_str().expect("a name").to_string();
        let wanted = if i % 10 == 3 { 12 } else { 5 };
        let text = common::sample("sample.cabinet") + &format!("    expect adder at next r0 7 r1 {}\n", wanted + 7);
        std::fs::write(&file, text).expect("a temporary file");
        files.push(file);
    }
    let junit = folder.join("junit.xml").to_str().expect("a name").to_string();
    let arguments: Vec<&str> = ["check", "--junit", &junit].into_iter().chain(files.iter().map(String::as_str)).collect();
    let ended = ks_wide("1000", &arguments, &[]);
    let lines: Vec<String> = String::from_utf8(ended.stdout).expect("text").lines().map(str::to_string).collect();
    assert_eq!((ended.status.code(), lines.len()), (Some(4), 100));
    for (i, (line, file)) in lines.iter().zip(&files).enumerate() {
        let word = if i % 10 == 3 { "FAIL" } else { "ok  " };
        assert!(line.starts_with(&format!("{word} {file}: ")), "{line}");
    }
    let xml = std::fs::read_to_string(&junit).expect("JUnit's file");
    assert!(xml.contains("<testsuite name=\"ks check\" tests=\"100\" failures=\"10\" errors=\"0\""), "{xml}");
    assert_eq!((xml.matches("<testcase ").count(), xml.matches("<failure ").count()), (100, 10));
    complains(
        &["check", "--junit", "/dev/full", "samples/release.cabinet"],
        &[],
        1,
        "ok   samples/release.cabinet: 18 expectations, 96 records\n",
        "/dev/full: can't be written",
    );
    std::fs::remove_dir_all(&folder).expect("a temporary folder");
}
