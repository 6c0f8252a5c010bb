//! What the runs met: answers with their causes, origins, refusals, kinds of input, and traits of the tables. Everything listed must have been
//! met.
use crate::back_seen::BackSeen;
use outside::rules::reader::{judge_table, Instruction, Process, Table, OUTSIDE};
use outside::rules::reasons::{reasons, CAUSES};
use outside::rules::run::Run;
use std::collections::BTreeMap;

/// The numbers by which a run is refused, in their order, and 0.
const NUMBERS: [u8; 15] = [0, 1, 2, 3, 4, 5, 6, 7, 8, 47, 9, 10, 11, 12, 51];

/// The kinds whose schedules are written so that most records are accepted.
pub const SOUND: [&str; 3] = ["sound", "crash at every place", "10,000 records"];

/// The kind whose programs calculate for long.
pub const LOOPS: &str = "long calculations";

/// A kind of input: how many runs, their records and how many of those were accepted, and how many runs were refused or ended quiet,
/// had a crash that was done, or ended with hold-back left.
#[derive(Default)]
struct Kind {
    name: &'static str,
    runs: u64,
    records: u64,
    accepted: u64,
    refused: u64,
    quiet: u64,
    crashed: u64,
    hold_back: u64,
    /// Had a return or a resync that was done; had three crashes or more that were.
    returned: u64,
    thrice: u64,
}

/// What a table may have, as a test of it.
type Trait = (&'static str, fn(&Table) -> bool);

const TRAITS: [Trait; 16] = [
    ("version 1", |t| t.version == 1),
    ("version 2", |t| t.version == 2),
    ("limit 1", |t| t.processes.iter().any(|p| p.limit == 1)),
    ("limit 2", |t| t.processes.iter().any(|p| p.limit == 2)),
    ("limit 8 in version 2", |t| t.version == 2 && t.processes.iter().any(|p| p.limit == 8)),
    ("limit 16", |t| t.processes.iter().any(|p| p.limit == 16)),
    ("one process", |t| t.processes.len() == 1),
    ("16 processes", |t| t.processes.len() == 16),
    ("2 boards", |t| t.boards == 2),
    ("16 boards", |t| t.boards == 16),
    ("32 channels", |t| t.channels.len() == 32),
    ("a self-channel", |t| t.channels.iter().any(|ends| ends.sender == ends.reader)),
    ("a channel to the outside", |t| t.channels.iter().any(|ends| ends.reader == OUTSIDE)),
    ("FIRST over several channels", |t| any(t, |_, i| matches!(i, Instruction::First { mask, .. } if mask.count_ones() > 1))),
    ("a jump back", |t| any(t, |at, i| matches!(i, Instruction::Jump { place, .. } if (place as usize) <= at))),
    ("a program that must halt", |t| {
        t.processes.iter().any(|p| !p.program.iter().any(|i| matches!(i, Instruction::Jump { .. })))
    }),
];

fn any(table: &Table, mut test: impl FnMut(usize, Instruction) -> bool) -> bool {
    table.processes.iter().any(|process| process.program.iter().enumerate().any(|(at, &i)| test(at, i)))
}

fn calculates(instruction: &Instruction) -> bool {
    matches!(instruction, Instruction::Set { .. } | Instruction::Add { .. } | Instruction::Jump { .. })
}

#[derive(Default)]
pub struct Seen {
    pub runs: u64,
    /// Runs with a return or a resync that was done, and with three crashes or more that were.
    pub returned: u64,
    pub thrice: u64,
    most_crashes: u64,
    /// By the bytes of the list of reasons: each code with each cause.
    reasons: BTreeMap<u8, u64>,
    /// Runs refused with 11 for the list of reasons alone.
    reasons_short: u64,
    /// By the bytes of the list of origins: each sender with each place, of words on the bus.
    origins: BTreeMap<(u8, u8), u64>,
    numbers: BTreeMap<u8, u64>,
    kinds: Vec<Kind>,
    traits: [u64; TRAITS.len()],
    /// The table that was looked at last, so that a sweep looks once.
    last: Vec<u8>,
    /// The processes of that table that neither read nor send, and how often one of such was refused with 37.
    silent: Vec<bool>,
    ran_long: u64,
    /// Of each process of that table the channels of its SENDs, by their places.
    sends: Vec<BTreeMap<u8, u8>>,
    most_records: usize,
    most_unread: u8,
    most_hold_back: u8,
    pub back: BackSeen,
}

impl Seen {
    /// Counts a run; the schedule is sound where the run was accepted.
    pub fn count(&mut self, kind: &'static str, table: &[u8], schedule: &[u8], run: &Run) {
        let at = self.kinds.iter().position(|k| k.name == kind).unwrap_or_else(|| {
            self.kinds.push(Kind { name: kind, ..Kind::default() });
            self.kinds.len() - 1
        });
        let kind = &mut self.kinds[at];
        kind.runs += 1;
        *self.numbers.entry(run.outcome.number).or_default() += 1;
        if run.outcome.number != 0 {
            kind.refused += 1;
            self.reasons_short += (run.outcome.number == 11 && run.lent.answers.len() >= schedule.len() - 3) as u64;
            return;
        }
        kind.quiet += run.outcome.quiet as u64;
        kind.records += run.outcome.records as u64;
        if self.last != table {
            self.last = table.to_vec();
            let table = judge_table(table).expect("the table of an accepted run");
            TRAITS.iter().zip(&mut self.traits).for_each(|((_, test), n)| *n += test(&table) as u64);
            self.silent = table.processes.iter().map(|process| process.program.iter().all(calculates)).collect();
            self.sends = table.processes.iter().map(sends).collect();
        }
        let (mut crashes, mut returns) = (0, 0);
        run.lent.reasons.iter().take(run.outcome.records).for_each(|&reason| *self.reasons.entry(reason).or_default() += 1);
        for (answer, record) in run.lent.answers.chunks_exact(6).zip(schedule[3..].chunks_exact(6)) {
            kind.accepted += (answer[0] < 32) as u64;
            crashes += (record[0] == 5 && answer[0] == 0) as u64;
            returns += ((6..=7).contains(&record[0]) && answer[0] == 0) as u64;
            self.ran_long += (answer[0] == 37 && self.silent[record[1] as usize]) as u64;
        }
        kind.crashed += (crashes > 0) as u64;
        kind.returned += (returns > 0) as u64;
        kind.thrice += (crashes >= 3) as u64;
        self.returned += (returns > 0) as u64;
        self.thrice += (crashes >= 3) as u64;
        self.most_crashes = self.most_crashes.max(crashes);
        let lines = run.lent.report.chunks_exact(20).take(table[4] as usize);
        kind.hold_back += lines.clone().any(|line| line[3] > 0) as u64;
        self.most_records = self.most_records.max(run.outcome.records);
        self.most_unread = self.most_unread.max(lines.clone().map(|line| line[2]).max().unwrap_or(0));
        self.most_hold_back = self.most_hold_back.max(lines.map(|line| line[3]).max().unwrap_or(0));
        self.count_origins(run);
        self.back.count(schedule, &run.lent.answers);
    }

    /// Counts from where the words on the bus of an accepted run came: each was fed, or a SEND to its channel stands there.
    fn count_origins(&mut self, run: &Run) {
        let shown = run.lent.answers.chunks_exact(6).zip(run.lent.origins.chunks_exact(2)).take(run.outcome.records);
        for (answer, origin) in shown.filter(|(answer, _)| answer[0] == 4) {
            let (channel, sender, place) = (answer[1], origin[0], origin[1]);
            let genuine = match self.sends.get(sender as usize) {
                Some(sends) => sends.get(&place) == Some(&channel),
                None => (sender, place) == (OUTSIDE, 0),
            };
            assert!(genuine, "no SEND to channel {channel} stands at place {place} of process {sender}");
            *self.origins.entry((sender, place)).or_default() += 1;
        }
    }

    /// Prints all counts; false if something was never met.
    pub fn report(&self) -> bool {
        println!(
            "{:<22}{:>8}{:>10}{:>10}{:>9}{:>8}{:>9}{:>10}{:>8}{:>11}",
            "", "runs", "records", "accepted", "refused", "quiet", "crashed", "returned", "thrice", "hold-back"
        );
        let mut all = Kind { name: "all", ..Kind::default() };
        for k in &self.kinds {
            print_kind(k);
            all.runs += k.runs;
            all.records += k.records;
            all.accepted += k.accepted;
            all.refused += k.refused;
            all.quiet += k.quiet;
            all.crashed += k.crashed;
            all.returned += k.returned;
            all.thrice += k.thrice;
            all.hold_back += k.hold_back;
        }
        print_kind(&all);
        let sound =
            self.kinds.iter().filter(|k| SOUND.contains(&k.name)).fold((0, 0), |(n, m), k| (n + k.accepted, m + k.records));
        println!("of the {} records of sound runs {:.1}% were accepted", sound.1, percent(sound.0, sound.1));
        println!(
            "longest schedule {} records; at most {} crashes in one; at an end at most {} unread words and {} hold-back",
            self.most_records, self.most_crashes, self.most_unread, self.most_hold_back
        );
        let tables: Vec<String> = TRAITS.iter().zip(&self.traits).map(|((name, _), n)| format!("{name} {n}")).collect();
        println!("tables with: {}", tables.join(", "));
        let times = |code: u8, cause: u8| self.reasons.get(&(4 * code + cause)).copied().unwrap_or(0);
        let answers = CAUSES.iter().map(|&(code, causes)| {
            let each: Vec<String> = causes.iter().map(|&cause| times(code, cause).to_string()).collect();
            format!("{code}: {}", each.join("/"))
        });
        println!("answers, cause by cause {}", answers.collect::<Vec<_>>().join(", "));
        let numbers: Vec<String> = self.numbers.iter().map(|(n, times)| format!("{n}: {times}")).collect();
        println!("numbers {}", numbers.join(", "));
        let mut missing: Vec<String> = Vec::new();
        let named = |reason: u8| format!("answer {} with cause {}", reason / 4, reason % 4);
        missing.extend(reasons().filter(|reason| !self.reasons.contains_key(reason)).map(named));
        let unknown = |reason: &&u8| !reasons().any(|known| known == **reason);
        missing.extend(self.reasons.keys().filter(unknown).map(|&reason| format!("a rule for {}", named(reason))));
        missing.extend(NUMBERS.iter().filter(|n| !self.numbers.contains_key(n)).map(|n| format!("number {n}")));
        missing.extend(
            TRAITS.iter().zip(&self.traits).filter(|(_, &n)| n == 0).map(|((name, _), _)| format!("a table with {name}")),
        );
        println!("37 for instructions alone: {}", self.ran_long);
        if self.ran_long == 0 {
            missing.push("37 of a program that neither reads nor sends".to_string());
        }
        println!("11 for the list of reasons alone: {}", self.reasons_short);
        if self.reasons_short == 0 {
            missing.push("11 for the list of reasons alone".to_string());
        }
        missing.extend(self.report_origins());
        missing.extend(self.back.report());
        missing.iter().for_each(|what| println!("never met: {what}"));
        missing.is_empty()
    }
}

impl Seen {
    /// Prints from where words on the bus came; what of it was never met.
    fn report_origins(&self) -> Vec<String> {
        let times = |test: &dyn Fn(u8, u8) -> bool| -> u64 {
            self.origins.iter().filter(|(&(sender, place), _)| test(sender, place)).map(|(_, n)| n).sum()
        };
        let places = (0..64).filter(|&at| times(&|sender, place| sender != OUTSIDE && place == at) > 0).count();
        let fed = times(&|sender, _| sender == OUTSIDE);
        println!("words on the bus: fed {fed}, sent {}, from {places} places", times(&|sender, _| sender != OUTSIDE));
        let mut missing = Vec::new();
        let mut wanted = |what: String, n: u64| missing.extend((n == 0).then_some(what));
        wanted("a word that was fed".to_string(), fed);
        (0..16).for_each(|p| wanted(format!("a word from process {p}"), times(&|sender, _| sender == p)));
        for at in [0, 63] {
            wanted(format!("a word from place {at}"), times(&|sender, place| sender != OUTSIDE && place == at));
        }
        missing
    }
}

fn sends(process: &Process) -> BTreeMap<u8, u8> {
    let send = |(at, instruction): (usize, &Instruction)| match *instruction {
        Instruction::Send { channel, .. } => Some((at as u8, channel)),
        _ => None,
    };
    process.program.iter().enumerate().filter_map(send).collect()
}

fn percent(part: u64, all: u64) -> f64 {
    100.0 * part as f64 / all.max(1) as f64
}

fn print_kind(k: &Kind) {
    let share = percent(k.accepted, k.records);
    println!(
        "{:<22}{:>8}{:>10}{:>9.1}%{:>9}{:>8}{:>9}{:>10}{:>8}{:>11}",
        k.name, k.runs, k.records, share, k.refused, k.quiet, k.crashed, k.returned, k.thrice, k.hold_back
    );
}
