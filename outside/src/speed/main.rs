//! How long the proved run of a schedule takes, beside a plain one in Rust, and beside a loop that only decodes records and writes answers:
//! `speed [--repetitions N] [--seed N] [--mix TEXT]`. What it prints is Markdown, as docs/SPEED.md has it. With `--mix`, only mixes with this
//! text in their name.
mod back;
mod baseline;
mod floor;
mod mixes;
mod tables;
mod timing;

use mixes::{claimed, others, Input, Mix, RECORDS};
use outside::options::{number, option};
use outside::random::Random;
use outside::rules::generate::{encode_schedule, encode_table, schedule, table};
use outside::rules::lent::Lent;
use outside::rules::repairs::{crash_after_crash, row};
use timing::time;

// All code behind it stands 16 bytes further for each: where code stands changes how quick it is, ours and the plain run's, so `tools/speed`
// builds one program for each of four places and compares them.
std::arch::global_asm!(concat!(
    ".pushsection .text.unlikely.place,\"axR\",@progbits\n.zero 16 * ",
    env!("PLACE"),
    "\n.popsection"
));

const SEED: u64 = 0xE703_7ED1_A0B4_28DB;
const REPETITIONS: u64 = 50;
/// How many runs of a mix a repetition has, each drawn by itself: the branches of one alone, over and over, a processor knows by heart.
const RUNS: usize = 8;

/// The mixes of which it is shown that time grows as records do.
const GROWTH: [&str; 3] = ["steps mostly", "feeds, full inboxes", "the even mix"];

/// The mix whose records are taken back.
const BACK: &str = "the even mix";

/// The plain run is a right one: on generated runs it equals the simulator's.
fn check_plain(random: &mut Random) {
    for i in 0..2_000 {
        let table = if i % 2 == 0 { row(random) } else { table(random) };
        let mut records = if i % 4 == 0 { crash_after_crash(random, &table, 3, 150) } else { schedule(random, &table, 200) };
        // "it need not follow later requests": it has no move 8.
        records.retain(|record| record.kind != 8);
        let lengths = Lent::needed(records.len(), table.processes.len());
        let (table, schedule) = (encode_table(&table), encode_schedule(&records));
        let wanted = outside::rules::run::run(&table, &schedule, lengths);
        let mut lent = lengths.filled(0);
        let returned = baseline::run(&table, &schedule, lent.lend());
        assert!(returned == wanted.outcome.returned() && returned as u8 == 0, "the plain run returns {returned:#x}");
        assert!(lent == wanted.lent, "the plain run is none");
    }
}

/// What is asked for: how many rounds are timed, by which seed, and of which mixes.
struct Asked {
    repetitions: u64,
    seed: u64,
    named: String,
}

impl Asked {
    fn mixes(&self, among: Vec<Mix>) -> impl Iterator<Item = Mix> + '_ {
        among.into_iter().filter(|mix| mix.name.contains(&self.named))
    }

    /// A line for each mix, in nanoseconds a record; the largest ratios, and the least share of records not refused.
    fn print_mixes(&self, among: Vec<Mix>) -> ([f64; 2], f64) {
        println!("| mix | step | sync | carry | feed | other | not refused | ours | median | plain | median | floor | ratio | of medians |");
        println!("|---|---|---|---|---|---|---|---|---|---|---|---|---|---|");
        let (mut worst, mut least) = ([0.0f64; 2], 100.0f64);
        for mix in self.mixes(among) {
            let mut random = Random::new(self.seed);
            let inputs = [(); RUNS].map(|()| mix.draw(&mut random, RECORDS));
            let mean = |share: &dyn Fn(&Input) -> f64| inputs.iter().map(share).sum::<f64>() / RUNS as f64;
            let shares: Vec<String> = (0..5).map(|kind| format!("{:.0}%", mean(&|input| input.moves[kind]))).collect();
            let accepted = mean(&|input| input.accepted);
            let [ours, plain, floor] = time(&inputs, self.repetitions);
            let ratio = [ours.least / plain.least, ours.median / plain.median];
            let times = [ours.least, ours.median, plain.least, plain.median, floor.least];
            let times: Vec<String> = times.iter().map(|time| format!("{:.1}", time / (RUNS * RECORDS) as f64)).collect();
            let (shares, times) = (shares.join(" | "), times.join(" | "));
            println!("| {} | {shares} | {accepted:.1}% | {times} | {:.2} | {:.2} |", mix.name, ratio[0], ratio[1]);
            worst = [worst[0].max(ratio[0]), worst[1].max(ratio[1])];
            least = least.min(accepted);
        }
        (worst, least)
    }

    /// Whole calls with 0, 100, 1,000 and 10,000 records in microseconds, and what a record takes above a call with none. A round has as many
    /// records as one of the other tables, of as many runs as that makes, each drawn by itself.
    fn print_growth(&self, among: Vec<Mix>) {
        println!("| mix | whose | no records | 100 | 1,000 | 10,000 | a record of 100 | of 1,000 | of 10,000 |");
        println!("|---|---|---|---|---|---|---|---|---|");
        for mix in self.mixes(among).filter(|mix| GROWTH.contains(&mix.name)) {
            let mut random = Random::new(self.seed);
            let times = [0, 100, 1_000, RECORDS].map(|records| {
                let runs = RUNS * RECORDS / records.max(100);
                let inputs: Vec<Input> = (0..runs).map(|_| mix.draw(&mut random, records)).collect();
                time(&inputs, self.repetitions).map(|figures| (records as f64, figures.least / runs as f64))
            });
            for (who, whose) in ["ours", "plain"].into_iter().enumerate() {
                let none = times[0][who].1;
                let calls = times.map(|time| format!("{:.1}", time[who].1 / 1000.0));
                let each = times.map(|time| time[who]).map(|(records, time)| format!("{:.1} ns", (time - none) / records));
                println!("| {} | {whose} | {} | {} |", mix.name, calls.join(" | "), each[1..].join(" | "));
            }
        }
    }
}

impl Asked {
    /// Runs in which records are taken back, of one mix.
    fn print_back(&self, among: Vec<Mix>) {
        self.mixes(among).filter(|mix| mix.name == BACK).for_each(|mix| back::print(&mix, self.seed, self.repetitions));
    }
}

fn main() {
    let asked = Asked {
        repetitions: number("--repetitions").unwrap_or(REPETITIONS).max(1),
        seed: number("--seed").unwrap_or(SEED),
        named: option("--mix").unwrap_or_default(),
    };
    check_plain(&mut Random::new(asked.seed));
    println!(
        "{RUNS} runs of {RECORDS} records a mix, {} repetitions, seed {}. Buffers are filled before each run, outside the time.",
        asked.repetitions, asked.seed
    );
    println!("Whole calls: table and schedule judged, answers, reasons, report and origins written.");
    println!("\n16 processes, nanoseconds a record, the quickest run and the median:\n");
    let (worst, least) = asked.print_mixes(claimed());
    println!("\nThe label line, of 2 processes, and records that are refused mostly:\n");
    asked.print_mixes(others());
    println!("\nWhole calls, the quickest, in microseconds, and nanoseconds a record above a call with none:\n");
    asked.print_growth(claimed());
    println!("\nRecords taken back, whole calls, the quickest, in microseconds:\n");
    asked.print_back(claimed());
    println!("\nEvery run's number, answers, reasons, report and origins were those of the plain run. On 16 processes, with {least:.1}% or more of");
    println!("the records not refused, the largest ratio is {:.2}, of medians {:.2}.", worst[0], worst[1]);
}
