//! The built program as a process: given bytes on standard input, in one piece or in several, with a limit on its time.
use std::io::{Read, Write};
use std::os::fd::AsFd;
use std::path::Path;
use std::process::{Child, Command, ExitStatus, Stdio};
use std::thread::{scope, sleep};
use std::time::{Duration, Instant};

/// A program that takes longer than this does not end.
const LIMIT: Duration = Duration::from_secs(60);

/// What a process wrote, and how it ended.
pub struct Ended {
    pub page: Vec<u8>,
    pub errors: Vec<u8>,
    pub status: ExitStatus,
    /// How many bytes of its input could be written to it.
    pub written: usize,
}

/// How the input is handed over.
pub enum Input<'a> {
    Whole(&'a [u8]),
    /// In pieces with a pause between them, so that the program's readings are short.
    Pieces(&'a [&'a [u8]]),
    /// Followed by a byte that is repeated for as long as the program reads.
    Endless(&'a [u8], u8),
    /// With no end: the pipe stays open until the program has ended.
    Open(&'a [u8]),
}

/// Writes all of the input, or as much of it as is read; says how much that was.
fn write(input: &Input, mut pipe: impl Write) -> usize {
    let mut written = 0;
    let mut put = |bytes: &[u8]| {
        let done = pipe.write_all(bytes).and_then(|()| pipe.flush()).is_ok();
        written += if done { bytes.len() } else { 0 };
        done
    };
    match input {
        Input::Whole(bytes) | Input::Open(bytes) => {
            put(bytes);
        }
        Input::Pieces(pieces) => {
            for piece in *pieces {
                put(piece);
                sleep(Duration::from_millis(2));
            }
        }
        Input::Endless(bytes, byte) => {
            let more = [*byte; 4096];
            let mut goes_on = put(bytes);
            while goes_on {
                goes_on = put(&more);
            }
        }
    }
    written
}

/// Waits for the end of a process, and ends it where it takes too long.
pub fn wait(child: &mut Child) -> ExitStatus {
    let start = Instant::now();
    let mut pause = Duration::from_micros(50);
    loop {
        if let Some(status) = child.try_wait().expect("a child process") {
            return status;
        }
        if start.elapsed() > LIMIT {
            child.kill().expect("a child process");
            child.wait().expect("a child process");
            panic!("the program doesn't end");
        }
        sleep(pause);
        pause = (pause * 2).min(Duration::from_millis(20));
    }
}

/// A process with all three of its streams in our hands.
pub fn spawn(command: &mut Command) -> Child {
    let command = command.stdin(Stdio::piped()).stdout(Stdio::piped()).stderr(Stdio::piped());
    command.spawn().unwrap_or_else(|error| panic!("{command:?} can't be started: {error}"))
}

/// Runs a command on an input, to its end.
pub fn run_command(command: &mut Command, input: &Input) -> Ended {
    let mut child = spawn(command);
    let stdin = child.stdin.take().expect("piped");
    let (mut stdout, mut stderr) = (child.stdout.take().expect("piped"), child.stderr.take().expect("piped"));
    scope(|scope| {
        // A second hold on the pipe, so that it has no end while this is there.
        let held = matches!(input, Input::Open(_)).then(|| stdin.as_fd().try_clone_to_owned().expect("a pipe"));
        let writer = scope.spawn(move || write(input, stdin));
        let reader = |stream: &mut dyn Read| {
            let mut bytes = Vec::new();
            stream.read_to_end(&mut bytes).expect("a pipe");
            bytes
        };
        let page = scope.spawn(move || reader(&mut stdout));
        let errors = scope.spawn(move || reader(&mut stderr));
        let status = wait(&mut child);
        drop(held);
        let join = "a thread of the test";
        Ended { page: page.join().expect(join), errors: errors.join().expect(join), status, written: writer.join().expect(join) }
    })
}

/// Runs the program on an input.
pub fn run(program: &Path, input: &Input) -> Ended {
    run_command(&mut Command::new(program), input)
}
