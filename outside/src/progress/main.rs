//! That a cabinet goes on, by the proved run and by the simulator: `progress_tests [--runs N] [--seed N] [--all-met]`.
//!
//! First the cases by hand. Then generated runs: after each crash that is done, and at the end, each process with hold-back is stepped until it has
//! none; and the end is led on by carries, steps, and syncs that are owed, until the cabinet is quiet or stands still, or for a number of rounds: a
//! program may go round for ever. In every round it is quiet, or something can be done, or it is a standstill, and never two of these; and the proved run
//! answers what was given so: what can be done is done, and in a standstill no step and no carry is.
mod by_hand;
mod led;

use led::Led;
use outside::met::all_met;
use outside::options::number;
use outside::random::Random;
use outside::rules::generate::{continued, schedule};
use outside::rules::progress::{halted_reader, pressed, upward, Standing, STEPS_MOST};
use outside::rules::reader::{Instruction, Record, Table};
use outside::rules::repairs::{crash_after_crash, mended, row};
use outside::rules::sample::{crash, step};
use outside::rules::simulator::Cabinet;
use outside::rules::tables::of_any_kind;

const SEED: u64 = 0xE703_7ED1_A0B4_28DB;
const RUNS: u64 = 4_000;

/// So many rounds an unquiet end is led on.
const ROUNDS: usize = 60;

/// What was met.
#[derive(Default)]
struct Seen {
    runs: u64,
    crashes: u64,
    /// Processes that held something back, and the most steps that one needed.
    late: u64,
    most_steps: usize,
    /// Ends, and where the unquiet ones lead: quiet, goes on, standstill.
    quiet: u64,
    led: [u64; 3],
    /// Standstills in which a process owes a sync, so that its step is answered 37; of tables in which words go upward; and with dead boards.
    owing: u64,
    upward: u64,
    crashed: u64,
}

impl Seen {
    /// Each process becomes level.
    fn level(&mut self, mut led: Led) {
        let steps = led.level();
        self.late += steps.len() as u64;
        self.most_steps = self.most_steps.max(steps.iter().copied().max().unwrap_or(0));
        led.check();
    }

    /// A generated run.
    fn run(&mut self, random: &mut Random, table: &Table, records: &[Record]) {
        self.runs += 1;
        let mut led = Led::new(table);
        for &record in records {
            if led.lead(record) == 0 && record.kind == 5 {
                self.crashes += 1;
                self.level(led.clone());
            }
        }
        self.level(led.clone());
        match led.standing() {
            Standing::Quiet => {
                self.quiet += 1;
                led.probe(Standing::Quiet);
            }
            _ => self.lead_on(random, table, &mut led),
        }
        led.check();
    }

    /// An unquiet end.
    fn lead_on(&mut self, random: &mut Random, table: &Table, led: &mut Led) {
        let end = led.drive(random.pick(&[1, 2, 32]), ROUNDS);
        led.probe(end);
        match end {
            Standing::Quiet => self.led[0] += 1,
            Standing::GoesOn(_) => self.led[1] += 1,
            Standing::Standstill => {
                self.led[2] += 1;
                self.standstill(table, &led.cabinet);
                led.lasts(random, 30);
            }
        }
    }

    fn standstill(&mut self, table: &Table, cabinet: &Cabinet) {
        // What is refused changes nothing.
        let mut tried = cabinet.clone();
        let mut owes = |p: usize| pressed(table, cabinet, p) && tried.answer(step(p as u8)).code == 37;
        self.owing += (0..cabinet.processes.len()).any(&mut owes) as u64;
        self.crashed += (0..cabinet.boards()).any(|board| cabinet.dead(board)) as u64;
        if upward(table) {
            self.upward += 1;
            assert!(halted_reader(table, cabinet), "a standstill, and no reader has halted: {table:?} {cabinet:?}");
        }
    }

    /// Prints all counts; whether everything was met.
    fn report(&self) -> bool {
        let [quiet, goes_on, standstill] = self.led;
        let Seen { runs, crashes, late, most_steps, owing, upward, crashed, .. } = self;
        println!("progress: {crashes} crashes; {late} processes with hold-back were level after {most_steps} steps at most, none refused");
        println!("progress: {runs} ends, {} of them quiet; of the others {quiet} became quiet, {standstill} a standstill, {goes_on} go on", self.quiet);
        println!("progress: standstills with a process that owes a sync {owing}, behind a crash {crashed}, where words go upward {upward}");
        let few = [self.quiet, quiet, goes_on, standstill, *late].iter().any(|&n| n < runs / 40);
        !few && [*owing, *upward, *crashed].iter().all(|&n| n > 0) && *most_steps > STEPS_MOST / 2
    }
}

/// The cabinet after some records.
fn after<'t>(table: &'t Table, records: &[Record]) -> Cabinet<'t> {
    let mut led = Led::new(table);
    records.iter().for_each(|&record| {
        led.lead(record);
    });
    led.cabinet
}

/// A board pulled at each of some places.
fn pulled(seen: &mut Seen, random: &mut Random) {
    let table = of_any_kind(random);
    let length = random.pick(&[0, 40, 120, 300]);
    let lead = continued(random, &table, Cabinet::new(&table), length);
    let rest = continued(random, &table, after(&table, &lead), 6);
    for place in 0..=rest.len() {
        for board in 0..table.boards.min(4) {
            let records = [&lead[..], &rest[..place], &[crash(board)], &rest[place..]].concat();
            seen.run(random, &table, &records);
        }
    }
}

/// A schedule with a crash or several, as it comes.
fn sound(seen: &mut Seen, random: &mut Random) {
    let table = of_any_kind(random);
    let length = random.pick(&[0, 5, 20, 60, 300, 600]);
    let records = schedule(random, &table, length);
    seen.run(random, &table, &records);
}

/// Boards pulled, returned and resynced; then one more.
fn again(seen: &mut Seen, random: &mut Random) {
    let table = of_any_kind(random);
    let crashes = random.pick(&[1, 2, 3]);
    let mut records = mended(random, &table, crashes);
    records.push(crash(random.below(table.boards as u32) as u8));
    let length = random.pick(&[0, 10, 60]);
    records.extend(continued(random, &table, after(&table, &records), length));
    seen.run(random, &table, &records);
}

/// Crash after crash, and the end somewhere among them.
fn often(seen: &mut Seen, random: &mut Random) {
    let table = row(random);
    let crashes = 3 + random.below(6) as usize;
    let mut records = crash_after_crash(random, &table, crashes, 600);
    records.truncate(random.below(records.len().min(4_000) as u32 + 1) as usize);
    seen.run(random, &table, &records);
}

/// Words go upward, and one of the programs halts: it goes round no more.
fn halting(seen: &mut Seen, random: &mut Random) {
    let mut table = row(random);
    let p = random.below(table.processes.len() as u32) as usize;
    table.processes[p].program.pop_if(|last| matches!(last, Instruction::Jump { .. }));
    let length = random.pick(&[100, 300, 600]);
    let records = schedule(random, &table, length);
    seen.run(random, &table, &records);
}

fn main() {
    let runs = number("--runs").unwrap_or(RUNS);
    let seed = number("--seed").unwrap_or(SEED);
    println!("progress: {runs} runs or more, seed {seed}");
    by_hand::check();
    let (mut seen, mut random) = (Seen::default(), Random::new(seed));
    while seen.runs < runs {
        pulled(&mut seen, &mut random);
        for kind in [sound, again, often, halting] {
            (0..6).for_each(|_| kind(&mut seen, &mut random));
        }
    }
    all_met("progress", seen.report());
    println!("progress: ok, {} runs, and the proved run answers as they say", seen.runs);
}
