//! The proved calls as the commands use them: the one place that knows how the bindings are called.
use kunzeastylus::{Answer, BusWord, Cabinet, Fate, Lengths, Lists, ProcessEnd, Record, Refusal, Run, View};

/// What an accepted run wrote, kept.
#[derive(Clone, Debug, PartialEq, Eq)]
pub struct Ran {
    pub answers: Vec<Answer>,
    pub fates: Vec<Fate>,
    /// The bus order.
    pub bus: Vec<BusWord>,
    pub ends: Vec<ProcessEnd>,
    pub quiet: bool,
}

/// The number by which a run is refused, or what it wrote.
pub fn run(table: &[u8], schedule: &[u8]) -> Result<Ran, u8> {
    let run = ran(table, schedule).map_err(Refusal::number)?;
    Ok(Ran {
        answers: run.answers().collect(),
        fates: run.fates(),
        bus: run.bus().collect(),
        ends: run.processes().collect(),
        quiet: run.quiet,
    })
}

fn ran(table: &[u8], schedule: &[u8]) -> Result<Run, Refusal> {
    Cabinet::new(table)?.run(schedule)
}

/// The same of these records.
pub fn run_records(table: &[u8], records: &[Record]) -> Result<Ran, u8> {
    run(table, &Record::schedule(records))
}

/// The answers of a run from a record on; none where it is refused.
pub fn answers_from(table: &[u8], records: &[Record], from: usize) -> Vec<Answer> {
    ran(table, &Record::schedule(records)).map_or(Vec::new(), |run| run.answers().skip(from).collect())
}

/// The whole cabinet behind these records, or the number by which their run is refused.
pub fn view(table: &[u8], records: &[Record]) -> Result<Box<View>, u8> {
    kunzeastylus::view(table, &Record::schedule(records)).map_err(Refusal::number)
}

/// The number by which a run of these is refused, whatever is lent.
pub fn judge(table: &[u8], schedule: &[u8]) -> Result<(), u8> {
    kunzeastylus::judge(table, schedule, Lengths::ENOUGH).map_err(Refusal::number)
}

/// The table of these lists, or the number by which the writer refuses them.
pub fn write(lists: &Lists) -> Result<Vec<u8>, u8> {
    lists.table().map_err(Refusal::number)
}

/// What a refusal means, in the words of docs/NUMBERS.md.
pub fn meaning(number: u8) -> &'static str {
    Refusal::try_from(number).map_or("", Refusal::words)
}
