//! Commands as they are called, with what they print, what they say and how they end, as stored in golden/*.txt: behind `$ ks ..` stands standard
//! output, then standard error with `! ` before each line, then the exit code where it isn't 0. With KS_GOLDEN=write they are written anew.
mod common;

use common::{ks, ROOT};
use std::path::PathBuf;

/// What a command line gives.
fn block(line: &str) -> String {
    let arguments: Vec<&str> = line.split_whitespace().collect();
    let ended = ks(&arguments, &[]);
    let mut text = format!("$ ks {line}\n{}", String::from_utf8_lossy(&ended.stdout));
    for said in String::from_utf8_lossy(&ended.stderr).lines() {
        text += &format!("! {said}\n");
    }
    match ended.status.code() {
        Some(0) => text,
        code => text + &format!("[{}]\n", code.map_or("a signal".to_string(), |code| code.to_string())),
    }
}

#[test]
fn stored() {
    let folder = PathBuf::from(format!("{ROOT}/desk/tests/golden"));
    let mut files: Vec<PathBuf> =
        std::fs::read_dir(folder).expect("golden/").map(|entry| entry.expect("golden/").path()).collect();
    files.retain(|path| path.extension().is_some_and(|extension| extension == "txt"));
    files.sort();
    assert!(files.len() >= 5, "{files:?}");
    for path in files {
        let stored = std::fs::read_to_string(&path).expect("a golden file");
        let lines = stored.lines().filter_map(|line| line.strip_prefix("$ ks "));
        let now = lines.map(block).collect::<Vec<_>>().join("\n");
        match std::env::var("KS_GOLDEN").as_deref() {
            Ok("write") => std::fs::write(&path, now).expect("a golden file"),
            _ => assert_eq!(now, stored, "{}", path.display()),
        }
    }
}
