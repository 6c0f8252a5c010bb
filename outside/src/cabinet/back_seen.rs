//! What the runs met of move 8 (W-214): what was taken back, by how many in a row, and how it was refused. All of it must have been met.
use outside::rules::session::{BACK, KEPT};

/// What can be taken back, as a test of a record's move and its answer's code.
type Taken = (&'static str, fn(u8, u8) -> bool);

const TAKEN: [Taken; 11] = [
    ("a step", |kind, code| kind == 1 && code < 32),
    ("a sync", |kind, code| kind == 2 && code < 32),
    ("a word carried", |kind, code| (kind, code) == (3, 4)),
    ("a sync or resync carried", |kind, code| kind == 3 && (5..32).contains(&code)),
    ("a feed", |kind, code| (kind, code) == (4, 4)),
    ("a crash", |kind, code| (kind, code) == (5, 0)),
    ("a return", |kind, code| (kind, code) == (6, 0)),
    ("a resync", |kind, code| (kind, code) == (7, 0)),
    ("a refused step", |kind, code| kind == 1 && code >= 32),
    ("a refused crash", |kind, code| kind == 5 && code >= 32),
    ("an unknown move", |kind, _| !(1..=7).contains(&kind)),
];

#[derive(Default)]
pub struct BackSeen {
    /// Runs with a record taken back.
    pub runs: u64,
    taken: [u64; TAKEN.len()],
    /// Given again right behind its back.
    again: u64,
    /// Move 8s that were refused: for `a` or word, and by 53 with nothing given yet, all taken back, or the rest pushed out.
    strays: u64,
    at_first: u64,
    all_back: u64,
    pushed_out: u64,
    /// Rows of 63, 64 and more move 8s, and the longest row that was done.
    rows: [u64; 3],
    longest: usize,
}

impl BackSeen {
    /// Counts an accepted run.
    pub fn count(&mut self, schedule: &[u8], answers: &[u8]) {
        let records = || schedule[3..].chunks_exact(6);
        if !records().any(|record| record[0] == BACK) {
            return;
        }
        let run: Vec<(&[u8], u8)> = records().zip(answers.chunks_exact(6)).map(|(record, answer)| (record, answer[0])).collect();
        let mut standing: Vec<usize> = Vec::new();
        let (mut row, mut done, mut any) = (0, 0, false);
        for (i, &(record, code)) in run.iter().enumerate() {
            if record[0] != BACK {
                self.count_row(row);
                (row, done) = (0, 0);
                standing.push(i);
                continue;
            }
            row += 1;
            match code {
                7 => {
                    any = true;
                    done += 1;
                    let (taken, answer) = run[standing.pop().expect("a record that is taken back")];
                    let counts = TAKEN.iter().zip(&mut self.taken);
                    counts.for_each(|((_, test), n)| *n += test(taken[0], answer) as u64);
                    self.again += (run.get(i + 1) == Some(&(taken, answer))) as u64;
                }
                53 if i == 0 => self.at_first += 1,
                53 if standing.is_empty() => self.all_back += 1,
                53 => self.pushed_out += 1,
                _ => self.strays += 1,
            }
            self.longest = self.longest.max(done);
        }
        self.count_row(row);
        self.runs += any as u64;
    }

    fn count_row(&mut self, row: usize) {
        if row + 1 >= KEPT {
            self.rows[(row + 1 - KEPT).min(2)] += 1;
        }
    }

    /// Prints all counts; what of it was never met.
    pub fn report(&self) -> Vec<String> {
        let mut missing = Vec::new();
        let mut shown = Vec::new();
        let mut wanted = |what: &str, n: u64| {
            shown.push(format!("{what} {n}"));
            missing.extend((n == 0).then(|| format!("going back: {what}")));
        };
        TAKEN.iter().zip(self.taken).for_each(|((what, _), n)| wanted(what, n));
        wanted("given again", self.again);
        wanted("refused for a or word", self.strays);
        wanted("53 at the very beginning", self.at_first);
        wanted("53 with all taken back", self.all_back);
        wanted("53 with the rest pushed out", self.pushed_out);
        ["63 in a row", "64 in a row", "more in a row"].iter().zip(self.rows).for_each(|(what, n)| wanted(what, n));
        println!("{} runs with records taken back, at most {} in a row: {}", self.runs, self.longest, shown.join(", "));
        if self.longest != KEPT {
            missing.push(format!("going back: {KEPT} and no more"));
        }
        missing
    }
}
