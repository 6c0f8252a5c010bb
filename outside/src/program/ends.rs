//! That the program ends: with input that has no end, input in pieces, a reader that goes away, and a full device.
use crate::compare::Comparison;
use crate::process::{spawn, wait, Input};
use outside::rules::generate::encode_schedule;
use outside::rules::sample::{sample_schedule, step, SAMPLE};
use std::fs::OpenOptions;
use std::io::{Read, Write};
use std::os::unix::process::ExitStatusExt;
use std::process::{Child, Command, Stdio};

/// What an endless input is worth to the program: the longest table, the longest schedule and a byte more.
const ENOUGH: usize = 6_278 + 60_004;

/// What it may read of an endless input: that, and what pipes hold.
const MOST: usize = 1 << 20;

const SIGPIPE: i32 = 13;

/// Inputs that never end: each is answered from its beginning.
pub fn endless(comparison: &mut Comparison) {
    let mut version = SAMPLE;
    version[2] = 9;
    let sample = [&SAMPLE[..], &encode_schedule(&sample_schedule())].concat();
    // The longest table there is, of zeros and of ones.
    let (zeros, ones) = ([0x18, 0x84], [0x18, 0x84, 2]);
    let starts: [(&[u8], u8); 9] =
        [(&[], 0), (&[], 1), (&[], 255), (&zeros, 0), (&ones, 1), (&SAMPLE, 0), (&SAMPLE, 1), (&version, 1), (&sample, 0)];
    for (start, byte) in starts {
        let mut beginning = start.to_vec();
        beginning.resize(ENOUGH, byte);
        let ended = comparison.compare_as("endless", &beginning, &Input::Endless(start, byte));
        assert!(ended.written < MOST, "the program has read {} bytes of an endless input", ended.written);
    }
    // "A table length over 6,260 prints `refused 1` and reads no further", 6,276 by W-207: the pipe is open all the time.
    comparison.compare_as("no further", &[0x18, 0x85], &Input::Open(&[0x18, 0x85]));
    comparison.compare_as("no further", &[0xFF, 0xFF, 1], &Input::Open(&[0xFF, 0xFF, 1]));
    println!("program: endless inputs end");
}

/// The sample in pieces: parted at every 9th place, and byte by byte.
pub fn in_pieces(comparison: &mut Comparison) {
    let sample = [&SAMPLE[..], &encode_schedule(&sample_schedule())].concat();
    for place in (1..sample.len()).step_by(9) {
        let (first, second) = sample.split_at(place);
        comparison.compare_as("pieces", &sample, &Input::Pieces(&[first, second]));
    }
    let bytes: Vec<&[u8]> = sample.chunks(1).collect();
    comparison.compare_as("pieces", &sample, &Input::Pieces(&bytes));
    println!("program: input in pieces is read whole");
}

/// A quiet end: by itself or by the signal for a broken pipe, with nothing on standard error.
fn ends_quietly(what: &str, mut child: Child) {
    let status = wait(&mut child);
    let mut errors = String::new();
    child.stderr.take().expect("piped").read_to_string(&mut errors).expect("a pipe");
    assert!(errors.is_empty(), "{what}: standard error has {errors}");
    assert!(status.signal().is_none_or(|signal| signal == SIGPIPE), "{what}: {status}");
    println!("program: {what}: ends quietly ({status})");
}

/// The reader closes after a few bytes of a page of 10,000 records, or the page can't be written at all.
pub fn nobody_reads(comparison: &Comparison) {
    let input = [&SAMPLE[..], &encode_schedule(&[step(0); 10_000])].concat();
    let give = |child: &mut Child| child.stdin.take().expect("piped").write_all(&input).expect("the program reads its input");

    let mut child = spawn(&mut Command::new(comparison.program()));
    give(&mut child);
    let mut some = [0; 10];
    child.stdout.take().expect("piped").read_exact(&mut some).expect("the page's beginning");
    assert_eq!(&some, b"records 10");
    ends_quietly("the reader closes early", child);

    // The same, where the signal is ignored and the writing fails.
    let mut ignoring = Command::new("bash");
    ignoring.args(["-c", "trap '' PIPE; exec \"$1\"", "bash"]).arg(comparison.program());
    let mut child = spawn(&mut ignoring);
    give(&mut child);
    child.stdout.take().expect("piped").read_exact(&mut some).expect("the page's beginning");
    ends_quietly("the reader closes early, with the signal ignored", child);

    let full = OpenOptions::new().write(true).open("/dev/full").expect("/dev/full");
    let mut command = Command::new(comparison.program());
    let mut child = command.stdin(Stdio::piped()).stdout(full).stderr(Stdio::piped()).spawn().expect("the program");
    give(&mut child);
    ends_quietly("a full device", child);
}
