//! What the tests share: `ks` called as a user calls it.
#![allow(dead_code)]
use desk::explain::{Asked, Explaining, Given, Input, Put};
use desk::played::Played;
use desk::words::Spoken;
use kunzeastylus::Record;
use std::io::Write;
use std::process::{Command, Output, Stdio};

pub const ROOT: &str = concat!(env!("CARGO_MANIFEST_DIR"), "/..");

/// `ks`, called at the repository's root, and how it ended. Its lines are as in a pipe, so up to 100 wide.
pub fn ks(arguments: &[&str], input: &[u8]) -> Output {
    ks_wide("", arguments, input)
}

/// The same with lines of so many columns.
pub fn ks_wide(columns: &str, arguments: &[&str], input: &[u8]) -> Output {
    let mut program = Command::new(env!("CARGO_BIN_EXE_ks"))
        .args(arguments)
        .env("COLUMNS", columns)
        .current_dir(ROOT)
        .stdin(Stdio::piped())
        .stdout(Stdio::piped())
        .stderr(Stdio::piped())
        .spawn()
        .expect("the program");
    // A program that reads nothing may be gone already.
    let _ = program.stdin.take().expect("its input").write_all(input);
    program.wait_with_output().expect("its end")
}

/// What a command prints that ends with 0 and says nothing.
pub fn printed(arguments: &[&str], input: &[u8]) -> String {
    let ended = ks(arguments, input);
    let said = String::from_utf8_lossy(&ended.stderr);
    assert_eq!((ended.status.code(), said.as_ref()), (Some(0), ""), "{arguments:?}");
    String::from_utf8(ended.stdout).expect("text")
}

/// The same with its lines not folded.
pub fn printed_wide(arguments: &[&str], input: &[u8]) -> String {
    let ended = ks_wide("1000", arguments, input);
    assert_eq!((ended.status.code(), ended.stderr.len()), (Some(0), 0), "{arguments:?}");
    String::from_utf8(ended.stdout).expect("text")
}

/// A command that ends with this code, prints this and says something about this.
pub fn complains(arguments: &[&str], input: &[u8], code: i32, shown: &str, about: &str) {
    let ended = ks_wide("1000", arguments, input);
    let (out, said) = (String::from_utf8_lossy(&ended.stdout), String::from_utf8_lossy(&ended.stderr));
    assert!(
        ended.status.code() == Some(code) && out == shown && said.contains(about),
        "{arguments:?} ends with {:?}, prints {out} and says {said}",
        ended.status.code()
    );
}

/// A file of the repository.
pub fn read(path: &str) -> String {
    std::fs::read_to_string(format!("{ROOT}/{path}")).unwrap_or_else(|error| panic!("{path}: {error}"))
}

/// A file of samples/.
pub fn sample(name: &str) -> String {
    read(&format!("samples/{name}"))
}

/// A run in words by numbers, with what is put in.
pub fn explained(input: &Input, puts: &[Put], asked: Asked) -> String {
    let given = Given::of(&Record::read(&input.schedule).expect("a sound schedule"), puts);
    let schedule = Record::schedule(&given.records);
    let played = Played::of(Input { table: input.table.clone(), schedule }).expect("a sound run");
    Explaining::new(&played, &given, Spoken::NUMBERS).text(&asked)
}
