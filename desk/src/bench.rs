//! The page by the proved bench program, which reads standard input and can't tell whether its page was written: so its page is taken whole
//! and written here.
use crate::failure::Failure;
use std::io::Write;
use std::path::PathBuf;
use std::process::{Command, Stdio};

/// KS_BENCH; or `ks-bench` beside this program, where both are installed; or where `tools/bench` puts it, below the repository's root.
fn program() -> PathBuf {
    let named = std::env::var_os("KS_BENCH").map(PathBuf::from);
    let beside = || Some(std::env::current_exe().ok()?.parent()?.join("ks-bench")).filter(|path| path.is_file());
    let built = || concat!(env!("CARGO_MANIFEST_DIR"), "/../target/bin/bench").into();
    named.or_else(beside).unwrap_or_else(built)
}

/// The page of a table and a schedule.
pub fn page(table: &[u8], schedule: &[u8]) -> Result<Vec<u8>, Failure> {
    let path = program();
    let fault = |what: String| Failure::fault(format!("the bench program, {}: {what}", path.display()));
    let started = Command::new(&path).stdin(Stdio::piped()).stdout(Stdio::piped()).spawn();
    let mut program = started.map_err(|error| fault(format!("{error}; ./ks builds it")))?;
    let mut input = program.stdin.take().expect("its input is a pipe");
    let given = [table, schedule].concat();
    // It reads all before it prints, or ends early where it wants no more.
    let writer = std::thread::spawn(move || {
        let _ = input.write_all(&given);
    });
    let ended = program.wait_with_output().map_err(|error| fault(error.to_string()))?;
    writer.join().map_err(|_| fault("its input could not be written".to_string()))?;
    match ended.status.success() {
        true => Ok(ended.stdout),
        false => Err(fault(format!("ended with {}", ended.status))),
    }
}
