//! The files in samples/: each page as it stands beside its hex text, by the program, by the simulator and by `./run`.
use crate::compare::Comparison;
use crate::process::{run_command, Input};
use outside::rules::page::page;
use std::fs::read;
use std::path::{Path, PathBuf};
use std::process::Command;

pub fn root() -> PathBuf {
    PathBuf::from(concat!(env!("CARGO_MANIFEST_DIR"), "/.."))
}

/// The bytes of hex text, read here once more: pairs of digits, and comments.
fn bytes(text: &str) -> Vec<u8> {
    let digits: Vec<u32> = text
        .lines()
        .flat_map(|line| line.split('#').next().unwrap().chars())
        .filter(|c| !c.is_whitespace())
        .map(|c| c.to_digit(16).expect("a hex digit"))
        .collect();
    digits.chunks(2).map(|pair| (16 * pair[0] + pair[1]) as u8).collect()
}

fn sample(comparison: &mut Comparison, text: &Path, wanted: &[u8]) {
    let name = text.display();
    let hex = bytes(&String::from_utf8(read(text).expect("a sample")).expect("text"));
    let converted = run_command(Command::new(root().join("tools/hex")).arg(text), &Input::Whole(&[]));
    assert!(converted.page == hex && converted.status.success(), "{name}: tools/hex gives other bytes");
    assert!(page(&hex).as_bytes() == wanted, "{name}: the simulator's page is another");
    // The program's page is compared with the simulator's.
    comparison.compare("samples", &hex);
    let ran = run_command(Command::new(root().join("run")).arg(text), &Input::Whole(&[]));
    assert!(ran.page == wanted && ran.status.success(), "{name}: ./run prints another page");
}

/// Every sample with its page; the ten that README.md names are there.
pub fn samples(comparison: &mut Comparison) {
    let mut names: Vec<PathBuf> = std::fs::read_dir(root().join("samples"))
        .expect("samples/")
        .map(|entry| entry.expect("samples/").path())
        .filter(|path| path.extension().is_some_and(|extension| extension == "hex"))
        .collect();
    names.sort();
    for text in &names {
        sample(comparison, text, &read(text.with_extension("page")).expect("a page beside its sample"));
    }
    assert!(names.len() >= 10, "only {} samples", names.len());
    println!("program: {} samples, by the program, the simulator and ./run", names.len());
}
