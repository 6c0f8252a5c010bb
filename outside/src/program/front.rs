//! The front door, `./run`, and its converter: what they print and with which code they end, from another folder.
use crate::process::{run_command, Ended, Input};
use crate::samples::root;
use outside::rules::generate::encode_schedule;
use outside::rules::page::page;
use outside::rules::sample::{sample_schedule, SAMPLE};
use std::fs::write;
use std::path::Path;
use std::process::Command;

fn front(folder: &Path, arguments: &[&str], input: &[u8]) -> Ended {
    run_command(
        Command::new(root().canonicalize().expect("the root").join("run")).args(arguments).current_dir(folder),
        &Input::Whole(input),
    )
}

/// Prints this page.
fn prints(folder: &Path, arguments: &[&str], input: &[u8], wanted: &str) {
    let ended = front(folder, arguments, input);
    assert!(ended.status.code() == Some(0) && ended.page == wanted.as_bytes(), "./run {arguments:?} ends with {}", ended.status);
}

/// Says what is wrong on standard error, nothing on standard output, and ends with 2.
fn complains(folder: &Path, arguments: &[&str], input: &[u8], about: &str) {
    let ended = front(folder, arguments, input);
    let errors = String::from_utf8_lossy(&ended.errors);
    assert!(ended.status.code() == Some(2) && ended.page.is_empty(), "./run {arguments:?} ends with {}", ended.status);
    assert!(errors.contains(about), "./run {arguments:?} says {errors}");
}

pub fn check() {
    let folder = std::env::temp_dir().join(format!("kunzeastylus-{}", std::process::id()));
    std::fs::create_dir_all(&folder).expect("a temporary folder");
    let put = |name: &str, bytes: &[u8]| write(folder.join(name), bytes).expect("a temporary file");
    let sample = [&SAMPLE[..], &encode_schedule(&sample_schedule())].concat();
    let text = sample.iter().map(|byte| format!("{byte:02x}")).collect::<String>();
    let wanted = page(&sample);

    // The sample with no FILE, as bytes, as text, and from standard input; text in any layout.
    put("bytes", &sample);
    put("text", text.as_bytes());
    put("spaced name", format!("# {}\r\n\t{}\n{} # \u{fc}", "no pair: 0", &text[..74], text[74..].to_uppercase()).as_bytes());
    prints(&folder, &[], &[], &wanted);
    prints(&folder, &["bytes"], &[], &wanted);
    prints(&folder, &["text"], &[], &wanted);
    prints(&folder, &["spaced name"], &[], &wanted);
    prints(&folder, &["-"], &sample, &wanted);
    prints(&folder, &["-"], text.as_bytes(), &wanted);
    prints(&folder, &["--hex", "text"], &[], &wanted);
    prints(&folder, &["--bytes", "-"], &sample, &wanted);
    // A refusal is a page as any other.
    prints(&folder, &["-"], &[], "refused 1\n");
    prints(&folder, &["-"], &SAMPLE, "refused 9\n");
    prints(&folder, &["--bytes", "text"], &[], &page(text.as_bytes()));
    prints(&folder, &["/dev/zero"], &[], "refused 1\n");

    let help = front(&folder, &["--help"], &[]);
    assert!(help.status.code() == Some(0) && help.page.starts_with(b"usage: ./run") && help.errors.is_empty(), "./run --help");

    put("odd", b"00 23 0");
    put("letters", b"00 23 # fine\nhello # not\n");
    complains(&folder, &["odd"], &[], "odd: line 1");
    complains(&folder, &["letters"], &[], "letters: line 2");
    complains(&folder, &["--hex", "bytes"], &[], "bytes: line 1");
    complains(&folder, &["-"], b"0x00", "standard input: line 1");
    complains(&folder, &["missing"], &[], "missing: no such file");
    complains(&folder, &["."], &[], "folder");
    complains(&folder, &[""], &[], "no such file");
    complains(&folder, &["bytes", "text"], &[], "usage");
    complains(&folder, &["--what"], &[], "usage");
    complains(&folder, &["--help", "bytes"], &[], "usage");
    complains(&folder, &["--hex"], &[], "usage");
    std::fs::remove_dir_all(&folder).expect("a temporary folder");
    println!("program: ./run prints pages and answers what it can't read with 2");
}
