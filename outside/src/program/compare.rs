//! One input by the program and by the simulator: the pages, byte for byte; the program's exit code is 0 and its standard error empty.
use crate::process::{run, Ended, Input};
use outside::rules::page::page;
use std::path::{Path, PathBuf};

/// What pages were met.
pub struct Comparison {
    program: PathBuf,
    pub runs: u32,
    /// How often each refusal, and at 0 accepted runs.
    numbers: [u32; 48],
    /// How often each answer's code.
    codes: [u32; 54],
    quiet: [u32; 2],
    longest: usize,
}

/// The numbers by which the program can refuse: its own buffers are long enough.
const NUMBERS: [usize; 12] = [0, 1, 2, 3, 4, 5, 6, 7, 8, 47, 9, 10];

/// The codes of answers: those of what is done, and of refusals.
const CODES: [std::ops::Range<usize>; 4] = [0..8, 32..45, 48..51, 53..54];

impl Comparison {
    pub fn new(program: PathBuf) -> Comparison {
        Comparison { program, runs: 0, numbers: [0; 48], codes: [0; 54], quiet: [0; 2], longest: 0 }
    }

    pub fn program(&self) -> &Path {
        &self.program
    }

    /// Compares, and ends the test where there is a difference.
    pub fn compare(&mut self, kind: &str, bytes: &[u8]) {
        self.compare_as(kind, bytes, &Input::Whole(bytes));
    }

    /// The same with the input handed over in another way; `bytes` is what of it can decide anything.
    pub fn compare_as(&mut self, kind: &str, bytes: &[u8], input: &Input) -> Ended {
        let wanted = page(bytes);
        let ended = run(&self.program, input);
        self.runs += 1;
        if ended.page != wanted.as_bytes() || ended.status.code() != Some(0) || !ended.errors.is_empty() {
            println!("{kind}, run {}, input of {} bytes, {}", self.runs, bytes.len(), ended.status);
            println!("input {}", bytes.iter().map(|byte| format!("{byte:02X}")).collect::<Vec<_>>().join(" "));
            println!("standard error: {}", String::from_utf8_lossy(&ended.errors));
            difference(&ended.page, &wanted);
            println!("program: FAILED after {} runs", self.runs);
            std::process::exit(1);
        }
        self.count(&wanted);
        ended
    }

    fn count(&mut self, page: &str) {
        self.longest = self.longest.max(page.len());
        let numbers = |line: &str| line.split(' ').filter_map(|word| word.parse::<usize>().ok()).collect::<Vec<_>>();
        for line in page.lines() {
            let numbers = numbers(line);
            match line.split(' ').next() {
                Some("refused") => self.numbers[numbers[0]] += 1,
                Some("records") => self.numbers[0] += 1,
                Some("quiet") => self.quiet[numbers[0]] += 1,
                Some("process") => (),
                _ => self.codes[numbers[1]] += 1,
            }
        }
    }

    /// Shows what was met; true if everything was that can be.
    pub fn report(&self) -> bool {
        println!("program: {} runs; accepted {}, quiet {}", self.runs, self.numbers[0], self.quiet[1]);
        println!("  refused 1 to 10: {:?}, 47: {}", &self.numbers[1..=10], self.numbers[47]);
        let [done, refused, mended] = [0..8, 32..45, 48..51].map(|codes| &self.codes[codes]);
        println!("  answers 0 to 7: {done:?}, 32 to 44: {refused:?}, 48 to 50: {mended:?}, 53: {}", self.codes[53]);
        println!("  the longest page has {} bytes", self.longest);
        let met = NUMBERS.into_iter().all(|number| self.numbers[number] > 0);
        met && self.quiet.iter().all(|&n| n > 0) && CODES.into_iter().flatten().all(|code| self.codes[code] > 0)
    }
}

/// The first line that differs.
fn difference(page: &[u8], wanted: &str) {
    let page = String::from_utf8_lossy(page);
    println!("pages of {} and, by the simulator, {} bytes", page.len(), wanted.len());
    let (mut ours, mut theirs) = (page.lines(), wanted.lines());
    loop {
        match (ours.next(), theirs.next()) {
            (None, None) => return,
            (ours, theirs) if ours == theirs => (),
            (ours, theirs) => {
                return println!("{}\nby the simulator: {}", ours.unwrap_or("no line"), theirs.unwrap_or("no line"))
            }
        }
    }
}
