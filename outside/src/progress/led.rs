//! A cabinet that is led on, with what each further record has to be answered, by the simulator at once and by the proved call when all of it is
//! given to that.
use outside::call::ks_run;
use outside::random::Random;
use outside::rules::generate::{encode_schedule, encode_table};
use outside::rules::lent::Lent;
use outside::rules::progress::{level, standing, Next, Standing, Wanted};
use outside::rules::reader::{Record, Table};
use outside::rules::run::Outcome;
use outside::rules::sample::{carry, give_back, resync, step, sync};
use outside::rules::simulator::Cabinet;

/// A schedule has 10,000 records at most; a round, and what is tried at an end, need some of them.
const RECORDS_MOST: usize = 9_000;

#[derive(Clone)]
pub struct Led<'t> {
    table: &'t Table,
    pub cabinet: Cabinet<'t>,
    pub records: Vec<Record>,
    /// What the last of them have to be answered.
    wanted: Vec<Wanted>,
}

impl<'t> Led<'t> {
    pub fn new(table: &'t Table) -> Led<'t> {
        Led { table, cabinet: Cabinet::new(table), records: Vec::new(), wanted: Vec::new() }
    }

    /// A record of the run that was generated, and its answer's code.
    pub fn lead(&mut self, record: Record) -> u8 {
        self.records.push(record);
        self.cabinet.answer(record).code
    }

    /// Records that are answered so.
    pub fn give(&mut self, records: &[(Record, Wanted)]) {
        for &(record, wanted) in records {
            let code = self.cabinet.answer(record).code;
            assert!(wanted.met(code), "{record:?} is answered {code}: {wanted:?} is wanted: {:?} {:?}", self.table, self.records);
            self.note(record, wanted);
        }
    }

    fn note(&mut self, record: Record, wanted: Wanted) {
        self.records.push(record);
        self.wanted.push(wanted);
    }

    /// Steps each process until it holds nothing back: how many steps that takes of each of those that do.
    pub fn level(&mut self) -> Vec<usize> {
        let those: Vec<usize> = (0..self.cabinet.processes.len()).filter(|&p| self.cabinet.processes[p].hold_back > 0).collect();
        let mut steps = Vec::new();
        for p in those {
            let n = level(&mut self.cabinet, p);
            (0..n).for_each(|_| self.note(step(p as u8), Wanted::Done));
            steps.push(n);
        }
        steps
    }

    pub fn standing(&self) -> Standing {
        standing(self.table, &self.cabinet)
    }

    /// Goes on by itself until it is quiet or stands still, for so many rounds at most.
    pub fn drive(&mut self, carries: usize, rounds: usize) -> Standing {
        for _ in 0..rounds {
            let now = self.standing();
            if !matches!(now, Standing::GoesOn(_)) || self.records.len() >= RECORDS_MOST {
                return now;
            }
            self.round(carries);
        }
        self.standing()
    }

    /// Up to so many carries from each board, and a step of each process, with a sync before it where one is owed.
    fn round(&mut self, carries: usize) {
        let mut done: Vec<Next> = Vec::new();
        for board in 0..self.cabinet.boards() {
            done.extend((0..carries).map_while(|_| Next::of_board(&mut self.cabinet, board)));
        }
        done.extend((0..self.cabinet.processes.len() as u8).filter_map(|p| Next::of_process(&mut self.cabinet, p)));
        for (record, wanted) in done.into_iter().flat_map(Next::records) {
            self.note(record, wanted);
        }
    }

    /// What the cabinet's standing says of the records that could come next: what is named is done; at a quiet end, and in a standstill, no step and
    /// no carry is.
    pub fn probe(&mut self, standing: Standing) {
        if let Standing::GoesOn(next) = standing {
            return self.give(&next.records());
        }
        let steps: Vec<Record> = (0..self.cabinet.processes.len() as u8).map(step).collect();
        let carries: Vec<Record> = (0..self.cabinet.boards()).map(carry).collect();
        for record in [steps, carries].concat() {
            self.give(&[(record, Wanted::Refused)]);
        }
    }

    /// A standstill lasts: whatever is done but feeds and crashes, no step is, and each process keeps its place, its registers and its inbox.
    pub fn lasts(&mut self, random: &mut Random, records: usize) {
        let before = self.cabinet.clone();
        for _ in 0..records {
            let p = random.below(self.cabinet.processes.len() as u32) as u8;
            let board = random.below(self.cabinet.boards() as u32) as u8;
            let others = [sync(p), carry(board), carry(board), give_back(board), resync(p)];
            let one = if random.once_in(3) { (step(p), Wanted::Refused) } else { (random.pick(&others), Wanted::Any) };
            self.give(&[one]);
        }
        for (ours, theirs) in self.cabinet.processes.iter().zip(&before.processes) {
            let same = (ours.place, ours.registers, &ours.inbox) == (theirs.place, theirs.registers, &theirs.inbox);
            assert!(same, "a process has moved in a standstill: {before:?}");
        }
    }

    /// Gives all of it to the proved call: the last records are answered as they have to be, and report and quiet are those of this cabinet.
    pub fn check(&self) {
        let mut lent = Lent::needed(self.records.len(), self.table.processes.len()).filled(0xEE);
        let mut report = lent.report.clone();
        self.cabinet.report(&mut report);
        let wanted = Outcome { number: 0, records: self.records.len(), quiet: self.cabinet.quiet() }.returned();
        let returned = ks_run(&encode_table(self.table), &encode_schedule(&self.records), lent.lend());
        let from = self.records.len() - self.wanted.len();
        let codes = lent.answers.chunks_exact(6).skip(from).map(|answer| answer[0]);
        let other = codes.zip(&self.wanted).position(|(code, wanted)| !wanted.met(code));
        if returned != wanted || lent.report != report || other.is_some() {
            println!("table {:02X?}\nschedule {:02X?}", encode_table(self.table), encode_schedule(&self.records));
            println!(
                "returned {returned:#x}, by the simulator {wanted:#x}; report {:?}, by the simulator {report:?}",
                lent.report
            );
            if let Some(i) = other {
                let at = from + i;
                println!("record {} is answered {}: {:?} is wanted", at + 1, lent.answers[6 * at], self.wanted[i]);
            }
            println!("progress: FAILED");
            std::process::exit(1);
        }
    }
}
