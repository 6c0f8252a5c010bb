//! One run of the label line by the proved call and by the simulator, compared byte by byte; its labels, held against the sequence; and that its end
//! is quiet or goes on, and is never a standstill.
use outside::call::ks_label_run;
use outside::rules::answer::Answer;
use outside::rules::generate::{encode_schedule, encode_table};
use outside::rules::lent::Lent;
use outside::rules::line::{fault, seen, table, OUTLET, SCANNER, SERIAL_MOST};
use outside::rules::progress::{standing, Standing, Wanted};
use outside::rules::reader::{record, Record};
use outside::rules::run::{run, Outcome};
use outside::rules::session::Session;

/// What lies in buffers before a run.
const FILLER: u8 = 0xEE;

#[derive(Default)]
pub struct Counts {
    pub runs: u64,
    pub quiet: u64,
    /// Unquiet ends at which the proved call did what could be done next.
    pub went_on: u64,
    pub crashed: u64,
    /// Runs with three crashes or more, and the most of one run.
    pub thrice: u64,
    pub crashes: usize,
    /// The most cartons and labels of one run.
    pub cartons: usize,
    pub labels: usize,
    /// Runs with records taken back; cartons fed and words at the outlet that were.
    pub back: u64,
    pub unfed: usize,
    pub unprinted: usize,
}

fn answer(bytes: &[u8]) -> Answer {
    let record = record(bytes);
    Answer::new(record.kind, record.a, record.word)
}

/// What is wrong with a run, if anything is.
fn wrong(counts: &mut Counts, first: u32, records: &[Record], buffers: Lent<usize>) -> Option<&'static str> {
    let schedule = encode_schedule(records);
    let mut wanted = match first <= SERIAL_MOST {
        true => run(&encode_table(&table(first)), &schedule, buffers),
        false => run(&[], &[], buffers),
    };
    if first > SERIAL_MOST {
        wanted.outcome = Outcome { number: 46, records: 0, quiet: false };
    }
    let mut lent = buffers.filled(FILLER);
    let result = ks_label_run(first, &schedule, lent.lend());
    counts.runs += 1;
    if result != wanted.outcome.returned() {
        return Some("another number");
    }
    let written = wanted.outcome.written(2);
    for ((bytes, wanted), n) in lent.each().with(wanted.lent.each()).with(written).list() {
        if bytes[..n] != wanted[..n] {
            return Some("other answers, reasons or origins, or another report");
        }
        if bytes[n..].iter().any(|&byte| byte != FILLER) {
            return Some("a byte beyond them is touched");
        }
    }
    let answers: Vec<Answer> = lent.answers[..written.answers].chunks_exact(6).map(answer).collect();
    let (cartons, outlet) = seen(records, &answers);
    counts.quiet += wanted.outcome.quiet as u64;
    let crashes = answers.iter().zip(records).filter(|(answer, record)| (record.kind, answer.code) == (5, 0)).count();
    counts.crashed += (crashes > 0) as u64;
    counts.thrice += (crashes >= 3) as u64;
    counts.crashes = counts.crashes.max(crashes);
    counts.cartons = counts.cartons.max(cartons.len());
    counts.labels = counts.labels.max(outlet.len() / 2);
    counts.back += answers.iter().any(|answer| answer.code == 7) as u64;
    let on_the_bus = |channel| answers.iter().filter(|answer| (answer.code, answer.a) == (4, channel)).count();
    counts.unfed += on_the_bus(SCANNER) - cartons.len();
    counts.unprinted += on_the_bus(OUTLET) - outlet.len();
    fault(first, &cartons, &outlet, wanted.outcome.quiet).or_else(|| match wanted.outcome.number {
        0 => stuck(counts, first, records),
        _ => None,
    })
}

/// What is wrong with the end of an accepted run, if it is neither quiet nor goes on: a standstill, or something that can be done and isn't.
fn stuck(counts: &mut Counts, first: u32, records: &[Record]) -> Option<&'static str> {
    let table = table(first);
    let mut session = Session::of(&table, records.iter().map(|record| record.kind));
    records.iter().for_each(|&record| {
        session.answer(record);
    });
    let next = match standing(&table, &session.cabinet) {
        Standing::Quiet => return None,
        Standing::Standstill => return Some("a standstill"),
        Standing::GoesOn(next) => next.records(),
    };
    let (further, wanted): (Vec<Record>, Vec<Wanted>) = next.into_iter().unzip();
    let all = [records, &further].concat();
    if all.len() > 10_000 {
        return None;
    }
    let mut lent = Lent::needed(all.len(), 2).filled(FILLER);
    ks_label_run(first, &encode_schedule(&all), lent.lend());
    let codes = lent.answers[6 * records.len()..].chunks_exact(6).map(|answer| answer[0]);
    counts.went_on += 1;
    codes.zip(wanted).any(|(code, wanted)| !wanted.met(code)).then_some("what can be done next isn't")
}

/// One run by both; a difference ends the program.
pub fn compare(counts: &mut Counts, first: u32, records: &[Record], buffers: Lent<usize>) {
    if let Some(what) = wrong(counts, first, records, buffers) {
        println!("first {first}, {buffers:?}, schedule {:02X?}", encode_schedule(records));
        println!("label: FAILED after {} runs: {what}", counts.runs);
        std::process::exit(1);
    }
}
