//! Times of the proved run, the plain one and the floor on one input, turn by turn in one process; who is first changes. Before each run,
//! outside the time taken, the lent buffers are filled with other bytes; after each, number, answers, reasons, report and origins of the proved
//! and the plain run are compared.
use crate::mixes::Input;
use crate::{baseline, floor};
use outside::call;
use outside::rules::lent::Lent;
use std::time::Instant;

type Call = fn(&[u8], &[u8], Lent<&mut [u8]>) -> u64;
const CALLS: [Call; 3] = [call::ks_run, baseline::run, floor::run];

/// The first rounds are not counted.
const LEAD: u64 = 10;

/// What one call lends, and how long each of its rounds took, in nanoseconds.
struct Timed {
    lent: Lent<Vec<u8>>,
    returned: u64,
    times: Vec<u64>,
}

/// The quickest round and the median, in nanoseconds.
#[derive(Clone, Copy)]
pub struct Figures {
    pub least: f64,
    pub median: f64,
}

impl Timed {
    fn new(input: &Input) -> Timed {
        Timed { lent: Lent::needed(input.records(), input.processes).filled(0), returned: 0, times: Vec::new() }
    }

    /// How long the run took.
    fn run(&mut self, call: Call, input: &Input, filler: u8) -> u64 {
        self.lent.each_mut().map(|buffer| buffer.fill(filler));
        let lent = self.lent.lend();
        let start = Instant::now();
        self.returned = call(&input.table, &input.schedule, lent);
        start.elapsed().as_nanos() as u64
    }

    fn figures(mut self) -> Figures {
        self.times.sort_unstable();
        Figures { least: self.times[0] as f64, median: self.times[self.times.len() / 2] as f64 }
    }
}

/// The three runs of one input, compared; how long each took.
fn turns(timed: &mut [Timed; 3], input: &Input, i: u64) -> [u64; 3] {
    let mut times = [0; 3];
    for turn in 0..CALLS.len() {
        let who = (turn + i as usize) % CALLS.len();
        times[who] = timed[who].run(CALLS[who], input, i as u8);
    }
    let [ours, plain, _] = timed;
    let same = ours.returned == plain.returned && ours.lent == plain.lent;
    let accepted = ours.returned as u8 == 0 && ours.returned >> 32 == input.records() as u64;
    assert!(same && accepted, "{}: the runs differ: {:#x}, {:#x}", input.name, ours.returned, plain.returned);
    times
}

/// Ours, plain and the floor: the times of a round, in which each input of a list is run once. All have as many records and processes as the
/// first. Kept whole, so that a profiler tells one list from the next.
#[inline(never)]
pub fn time(inputs: &[Input], repetitions: u64) -> [Figures; 3] {
    let mut timed = CALLS.map(|_| Timed::new(&inputs[0]));
    for i in 0..repetitions + LEAD {
        let mut sums = [0; 3];
        for input in inputs {
            let times = turns(&mut timed, input, i);
            sums.iter_mut().zip(times).for_each(|(sum, time)| *sum += time);
        }
        if i >= LEAD {
            timed.iter_mut().zip(sums).for_each(|(timed, sum)| timed.times.push(sum));
        }
    }
    timed.map(Timed::figures)
}
