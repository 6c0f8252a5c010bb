//! A run from Rust: a table and a schedule in, answers and ends out. README.md shows it. examples/first.c is the same in C; both print
//! examples/first.out.
use kunzeastylus::{Cabinet, Record};
use std::error::Error;

/// Document 01's sample: one program on two boards that adds up what it is sent.
const TABLE: [u8; 37] =
    [0x00, 0x23, 1, 2, 1, 2, 255, 0, 0, 255, 0, 1, 4, 3, 0, 0, 0, 0, 0, 2, 1, 0, 0, 0, 0, 5, 1, 0, 0, 0, 1, 6, 0, 0, 0, 0, 0];

fn main() -> Result<(), Box<dyn Error>> {
    let schedule = Record::schedule(&[Record::feed(0, 5), Record::step(0), Record::crash(0), Record::step(0)]);
    let run = Cabinet::new(TABLE)?.run(&schedule)?;
    for (record, answer) in run.answers().enumerate() {
        println!("{}: {}", record + 1, answer.reason.words());
    }
    for (p, end) in run.processes().enumerate() {
        println!("process {p} runs on board {} at place {}, with {} unread", end.board, end.place, end.unread);
    }
    Ok(())
}
