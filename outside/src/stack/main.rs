//! How much stack each call takes, over generated inputs, sound and damaged, beside the limits that the header states: `stack_tests [--rounds N]
//! [--seed N]`.
mod painted;

use kunzeastylus::{calls, Backup, Lists, Snapshot, TABLE_MOST, VIEW};
use outside::call::{ks_judge, ks_label_run, ks_run};
use outside::options::number;
use outside::random::Random;
use outside::rules::damage::{damage_schedule, damage_table, DAMAGES};
use outside::rules::generate::{encode_schedule, encode_table, schedule};
use outside::rules::going_back::going_back;
use outside::rules::lent::Lent;
use outside::rules::line;
use outside::rules::repairs::mended;
use outside::rules::tables::of_any_kind;
use painted::Painted;
use std::hint::black_box;

const SEED: u64 = 0xA076_1D64_78BD_642F;
const ROUNDS: u64 = 1_000;
const HEADER: &str = include_str!("../../../include/kunzeastylus.h");

/// More than any call takes.
const STACK: usize = 1 << 20;

/// The most that a call took, and the limit of the header that it is under.
struct Most {
    call: &'static str,
    limit: &'static str,
    bytes: usize,
}

struct Measured {
    painted: Painted,
    most: Vec<Most>,
}

impl Measured {
    fn call<T>(&mut self, call: &'static str, limit: &'static str, made: impl FnOnce() -> T) {
        let bytes = self.painted.stack(|| {
            black_box(made());
        });
        match self.most.iter_mut().find(|most| most.call == call) {
            Some(most) => most.bytes = most.bytes.max(bytes),
            None => self.most.push(Most { call, limit, bytes }),
        }
    }

    /// A run, its judging, the view after it, and the sweep and the label line's run of the same schedule.
    fn runs(&mut self, table: &[u8], schedule: &[u8], swept: &[u8], first: u32) {
        let lengths = Lent::needed(schedule.len() / 6, 16);
        let mut lent = lengths.filled(0);
        self.call("ks_run", "KS_STACK_RUN", || ks_run(table, schedule, lent.lend()));
        self.call("ks_label_run", "KS_STACK_RUN", || ks_label_run(first, schedule, lent.lend()));
        self.call("ks_judge", "KS_STACK_OTHER", || ks_judge(table, schedule, lengths));
        let mut view = [0; VIEW];
        self.call("ks_view", "KS_STACK_VIEW", || calls::ks_view(table, schedule, &mut view));
        self.call("ks_sweep", "KS_STACK_SWEEP", || calls::ks_sweep(table, swept));
        self.call("ks_label_table", "KS_STACK_OTHER", || calls::ks_label_table(first, &mut [0; 84]));
    }

    /// A table taken apart, and written again.
    fn tables(&mut self, table: &[u8], lists: &Lists) {
        let [mut ends, mut placements, mut limits, mut instructions] = [vec![0; 64], vec![0; 48], vec![0; 16], vec![0; 3072]];
        let mut out = vec![0; TABLE_MOST];
        let given: [&[u32]; 4] = [&lists.ends, &lists.placements, &lists.limits, &lists.instructions];
        let counts = [lists.counts.boards, lists.counts.processes, lists.counts.channels];
        let lent = [&mut ends[..], &mut placements, &mut limits, &mut instructions];
        self.call("ks_table_apart", "KS_STACK_OTHER", || calls::ks_table_apart(table, lent));
        self.call("ks_table_write", "KS_STACK_TABLE_WRITE", || calls::ks_table_write(lists.version, counts, given, &mut out));
    }

    /// A record that fills up, is counted, synced and taken over.
    fn record(&mut self, random: &mut Random) {
        let taken = [random.below(3), 0, random.below(3), 0];
        self.call("the backup record's", "KS_STACK_OTHER", || {
            let mut backup = Backup::new();
            let arrived = (0..65).filter(|i| backup.arrive(i % 4, *i).is_ok()).count();
            let counted = (0..33).filter(|_| backup.count_one().is_ok()).count();
            (arrived, counted, backup.sync(&Snapshot { place: 3, registers: [1; 4], taken }), backup.take_over())
        });
    }

    fn round(&mut self, random: &mut Random) {
        let table = of_any_kind(random);
        let length = random.pick(&[0, 20, 300, 1_000]);
        let records = schedule(random, &table, length);
        let swept = encode_schedule(&schedule(random, &table, 40));
        let records = match random.below(3) {
            0 => going_back(random, &table, records, 1_200),
            1 => mended(random, &table, 3),
            _ => records,
        };
        let (sound, schedule) = (encode_table(&table), encode_schedule(&records));
        let first = random.pick(&[0, 1_000, u32::MAX]);
        let lists = Lists::of(&sound).expect("a sound table");
        self.runs(&sound, &schedule, &swept, first);
        self.tables(&sound, &lists);
        self.record(random);
        let on_the_line = outside::rules::generate::schedule(random, &line::table(1_000), 200);
        self.runs(&sound, &encode_schedule(&on_the_line), &swept, 1_000);
        let how = random.pick(&DAMAGES);
        let damaged = damage_table(random, sound.clone(), how);
        self.runs(&damaged, &schedule, &swept, first);
        self.tables(&damaged, &lists);
        let damaged = damage_schedule(random, schedule, how);
        self.runs(&sound, &damaged, &damaged, first);
    }
}

/// What the header defines a name as.
fn limit(name: &str) -> usize {
    let words = |line: &'static str| line.strip_prefix("#define ")?.strip_prefix(name)?.split_whitespace().next();
    HEADER.lines().find_map(words).expect("a limit of the header").parse().expect("a number")
}

fn main() {
    let rounds = number("--rounds").unwrap_or(ROUNDS);
    let seed = number("--seed").unwrap_or(SEED);
    println!("stack: {rounds} rounds, seed {seed}");
    let mut measured = Measured { painted: Painted::new(STACK), most: Vec::new() };
    painted::check(&mut measured.painted);
    let mut random = Random::new(seed);
    (0..rounds).for_each(|_| measured.round(&mut random));
    let mut over = false;
    for Most { call, limit: name, bytes } in measured.most {
        println!("stack: {call:<20} {bytes:>6} bytes, and {name} says {}", limit(name));
        over |= bytes > limit(name);
    }
    if over {
        println!("stack: FAILED, a call takes more than the header says");
        std::process::exit(1);
    }
    println!("stack: ok, no call takes more than the header says");
}
