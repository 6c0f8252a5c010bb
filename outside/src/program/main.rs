//! The built bench program against the simulator's page: `program_tests [--inputs N] [--seed N] [--all-met] [--program PATH]`.
//!
//! First the samples, the front door and the program's ends; then the sample, each of its beginnings and each of its bytes changed; then
//! generated inputs, sound and damaged.
mod compare;
mod ends;
mod front;
mod inputs;
mod process;
mod samples;

use compare::Comparison;
use inputs::{around_the_sample, input, KINDS};
use outside::met::all_met;
use outside::options::{number, option};
use outside::random::Random;

const SEED: u64 = 0x8EBC_6AF0_9C88_C6E3;
const INPUTS: u64 = 3_000;

fn main() {
    let (inputs, seed) = (number("--inputs").unwrap_or(INPUTS), number("--seed").unwrap_or(SEED));
    let program = option("--program").map_or_else(|| samples::root().join("target/bin/bench"), Into::into);
    println!("program: {inputs} generated inputs, seed {seed}");
    let mut comparison = Comparison::new(program);
    samples::samples(&mut comparison);
    front::check();
    ends::endless(&mut comparison);
    ends::in_pieces(&mut comparison);
    ends::nobody_reads(&comparison);
    for bytes in around_the_sample() {
        comparison.compare("around the sample", &bytes);
    }
    let mut random = Random::new(seed);
    for i in 0..inputs {
        let kind = i as usize % KINDS.len();
        comparison.compare(KINDS[kind], &input(&mut random, kind));
    }
    all_met("program", comparison.report());
    println!("program: ok, {} runs, every page as by the simulator", comparison.runs);
}
