//! Every place to pull a board: the three counts of the proved sweep in words, and the ending at each place as a map or as a list.
//!
//! A place is called BOARD@N, as `ks explain --pull` takes it: the crash of a board before record N, from 1; one past the last puts it at the
//! end.
use crate::explain::{Input, Pull};
use crate::words::{heading, many};
use kunzeastylus::{Refusal, Run, Sweep, Table};
use std::fmt::Write;

/// How a run ends.
#[derive(Clone, Copy, Debug, PartialEq, Eq)]
pub enum Ending {
    Quiet,
    Held,
    Open,
}

impl Ending {
    pub const ALL: [Ending; 3] = [Ending::Quiet, Ending::Held, Ending::Open];

    /// By what a run returned and what its report says.
    fn of(run: &Run) -> Ending {
        match (run.quiet, run.processes().any(|process| process.hold_back > 0)) {
            (true, _) => Ending::Quiet,
            (false, true) => Ending::Held,
            (false, false) => Ending::Open,
        }
    }

    /// What `--list` calls it.
    pub fn name(self) -> &'static str {
        match self {
            Ending::Quiet => "quiet",
            Ending::Held => "held",
            Ending::Open => "open",
        }
    }

    /// What stands for it in the map.
    pub fn sign(self) -> char {
        match self {
            Ending::Quiet => '.',
            Ending::Held => 'h',
            Ending::Open => 'o',
        }
    }

    pub fn words(self) -> &'static str {
        match self {
            Ending::Quiet => "quiet",
            Ending::Held => "unquiet with some hold-back left",
            Ending::Open => "unquiet with none",
        }
    }

    pub fn count(self, sweep: Sweep) -> u32 {
        match self {
            Ending::Quiet => sweep.quiet,
            Ending::Held => sweep.held,
            Ending::Open => sweep.open,
        }
    }
}

/// The sweep's counts, or why it is refused.
pub fn sweep(input: &Input) -> Result<Sweep, Refusal> {
    kunzeastylus::sweep(&input.table, &input.schedule)
}

/// The counts in words.
pub fn counts(input: &Input, sweep: Sweep) -> String {
    let table = Table::of(&input.table).expect("the table of an accepted sweep");
    let places = input.schedule.len() / 6 + 1;
    let mut text = String::new();
    writeln!(text, "{}", heading(places - 1, &table)).unwrap();
    let runs = many(sweep.runs() as usize, "run", "runs");
    writeln!(text, "{runs}: each board pulled at each of {}", many(places, "place", "places")).unwrap();
    for ending in Ending::ALL {
        writeln!(text, "{:>6} end {}", ending.count(sweep), ending.words()).unwrap();
    }
    text
}

/// The ending of each run: board by board, place by place.
pub struct Map {
    boards: Vec<Vec<Ending>>,
}

impl Map {
    /// Makes the runs of an accepted sweep one by one; after each, `made` is told how many there are. They add up to the counts.
    pub fn of(input: &Input, sweep: Sweep, mut made: impl FnMut(u32)) -> Map {
        let places = input.schedule.len() / 6 + 1;
        let mut runs = 0;
        let mut ending = |board, before| {
            let mut pulled = Input { table: input.table.clone(), schedule: input.schedule.clone() };
            pulled.pull(Pull { board, before });
            runs += 1;
            made(runs);
            Ending::of(&pulled.run(places).expect("a run of an accepted sweep"))
        };
        let boards = (0..input.table[3]).map(|board| (1..=places).map(|before| ending(board, before)).collect()).collect();
        let map = Map { boards };
        for ending in Ending::ALL {
            let count = map.places(ending).count() as u32;
            assert_eq!(count, ending.count(sweep), "a fault of this program: its map has other endings ({})", ending.name());
        }
        map
    }

    /// Where the runs with this ending have their crash.
    pub fn places(&self, ending: Ending) -> impl Iterator<Item = Pull> + '_ {
        self.boards.iter().zip(0..).flat_map(move |(endings, board)| {
            let those = endings.iter().zip(1..).filter(move |(&other, _)| other == ending);
            those.map(move |(_, before)| Pull { board, before })
        })
    }

    /// A line for each place with this ending, BOARD@N.
    pub fn list(&self, ending: Ending) -> String {
        self.places(ending).map(|pull| format!("{}@{}\n", pull.board, pull.before)).collect()
    }

    /// A line for each board with a sign for each place, under a line with every tenth place's number; what is wider than the lines is folded.
    pub fn text(&self, width: usize) -> String {
        let label = "board 15  ".len();
        let tens = (width.saturating_sub(label) / 10).max(1);
        let signs: Vec<String> = Ending::ALL.iter().map(|ending| format!("{} {}", ending.sign(), ending.words())).collect();
        let mut text = signs.join(", ") + "\n";
        let places = self.boards[0].len();
        for first in (0..places).step_by(10 * tens) {
            let end = places.min(first + 10 * tens);
            let numbers: String = (first..end).step_by(10).map(|place| format!("{:<10}", place + 1)).collect();
            writeln!(text, "\n{:<label$}{}", "before", numbers.trim_end()).unwrap();
            for (board, endings) in self.boards.iter().enumerate() {
                let signs: String = endings[first..end].iter().map(|ending| ending.sign()).collect();
                writeln!(text, "{:<label$}{signs}", format!("board {board}")).unwrap();
            }
        }
        text
    }
}
