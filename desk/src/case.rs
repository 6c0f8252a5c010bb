//! A cabinet and a schedule as a command gets them, whatever they were written in: the bytes that the proved calls take, the lines that
//! they come from, the names, and what is expected.
use crate::args;
use crate::explain::Input;
use crate::failure::Failure;
use crate::form::assemble::{self, Step, TableLines};
use crate::form::lexer::Wrong;
use crate::form::names::Names;
use crate::form::syntax::{At, Text};
use crate::input::{self, content, Content, Kind};
use crate::place::{self, Called, Fault, Lines, Origin};
use crate::proved;
use crate::settle::{unfold, Unfolded};
use crate::words::Spoken;
use kunzeastylus::{Lists, Record, Table};

/// The option that names a file for the table, where the schedule is in another.
pub const TABLE: args::Known = args::value("--table", "FILE");

/// Which files, and how the one is to be taken; that of the table alone is taken as it looks.
#[derive(Clone, Copy, Debug, PartialEq, Eq)]
pub struct Source<'f> {
    pub table: Option<&'f str>,
    pub file: &'f str,
    pub kind: Kind,
}

impl<'f> Source<'f> {
    /// The only input that is named: one file, or a table and a schedule.
    pub fn only(said: &args::Said<'f>) -> Result<Source<'f>, Failure> {
        let kind = input::kind(said)?;
        match (said.value("--table"), &said.files[..]) {
            (table, [file]) => Ok(Source { table, file, kind }),
            (None, [table, file]) => Ok(Source { table: Some(table), file, kind }),
            (_, []) => Err(Failure::usage("a file is wanted, or - for standard input")),
            _ => Err(Failure::usage(format!(
                "a file, or a table and a schedule, are wanted, and {} files are named",
                said.files.len()
            ))),
        }
    }

    /// Each file that is named, with the table of `--table` where that is given.
    pub fn each(said: &args::Said<'f>) -> Result<Vec<Source<'f>>, Failure> {
        let (kind, table) = (input::kind(said)?, said.value("--table"));
        Ok(said.files.iter().map(|file| Source { table, file, kind }).collect())
    }
}

/// What was read.
#[derive(Clone, Debug, PartialEq, Eq)]
pub struct Case {
    pub table: Vec<u8>,
    /// None where there is a table alone.
    pub schedule: Option<Vec<u8>>,
    pub names: Names,
    pub table_from: Origin,
    pub schedule_from: Origin,
    /// What the words of the schedule came to.
    pub unfolded: Unfolded,
}

/// Reads what a command is given, and has it judged: what is refused has its place.
pub fn load(source: Source) -> Result<Case, Failure> {
    let case = load_table(source)?;
    match &case.schedule {
        Some(schedule) => case.judged(schedule).map(|()| case),
        None => {
            let at = case.table_from.at(&case.table, place::Spot::End);
            Err(Failure::unread(format!("{at}: found no `schedule`, expected one behind the table, or in a file of its own")))
        }
    }
}

/// The same, where a table alone will do.
pub fn load_any(source: Source) -> Result<Case, Failure> {
    let case = load_table(source)?;
    let nothing = Record::schedule(&[]);
    case.judged(case.schedule.as_ref().unwrap_or(&nothing))?;
    Ok(case)
}

fn load_table(source: Source) -> Result<Case, Failure> {
    let Source { table, file, kind } = source;
    let Some(table) = table else {
        return match content(kind, file)? {
            Content::Words(text, wrong) => in_words(file, &text, wrong),
            Content::Hex(bytes, lines) => Ok(in_bytes(file, bytes, Some(lines))),
            Content::Bytes(bytes) => Ok(in_bytes(file, bytes, None)),
        };
    };
    with_schedule(file, kind, table_of(table)?)
}

/// The table of a file, without the schedule that may be there.
pub fn table_of(file: &str) -> Result<Case, Failure> {
    match content(Kind::AsItLooks, file)? {
        Content::Words(text, wrong) => {
            let (said, wrong) = Said::of(&text, wrong);
            all_right(file, wrong)?;
            said.written(file)
        }
        Content::Hex(bytes, lines) => table_in_bytes(file, bytes, Some(lines)),
        Content::Bytes(bytes) => table_in_bytes(file, bytes, None),
    }
}

/// A table as a text says it.
struct Said {
    lists: Lists,
    lines: TableLines,
    names: Names,
}

impl Said {
    /// What a text says, and all that is wrong with it.
    fn of(text: &Text, mut wrong: Vec<Wrong>) -> (Said, Vec<Wrong>) {
        let (names, more) = Names::of(text);
        wrong.extend(more);
        let (lists, lines) = assemble::table(text, &names, &mut wrong);
        (Said { lists, lines, names }, wrong)
    }

    /// The table's bytes, by the proved writer.
    fn written(self, file: &str) -> Result<Case, Failure> {
        let Said { lists, lines, names } = self;
        let origin = Origin { file: input::name(file).to_string(), lines: Lines::Table(lines) };
        match proved::write(&lists) {
            Ok(table) => Ok(Case::of_table(table, names, origin)),
            Err(number) => {
                let faults = place::table::of_lists(&lists, number, Called { names: Some(&names) });
                Err(refused(number, faults, |spot| origin.at(&[], spot)))
            }
        }
    }
}

/// Everything in one file of words.
fn in_words(file: &str, text: &Text, wrong: Vec<Wrong>) -> Result<Case, Failure> {
    if let (Some(schedule), None, []) = (&text.schedule, text.table(), &wrong[..]) {
        let alone = "found a schedule alone, expected its table above it, or in a file that is named before it or by --table";
        return Err(Failure::unread(format!("{}:{}: {alone}", input::name(file), schedule.line)));
    }
    let (said, mut wrong) = Said::of(text, wrong);
    let plan = text.schedule.as_ref().map(|at| (at.line, assemble::plan(&at.it, &said.names, &mut wrong)));
    all_right(file, wrong)?;
    let case = said.written(file)?;
    Ok(match plan {
        Some((heading, plan)) => case.planned(file, heading, &plan),
        None => case,
    })
}

/// Everything in one file of bytes: the table is as long as its length bytes say, and the rest is the schedule.
fn in_bytes(file: &str, bytes: Vec<u8>, lines: Option<Vec<usize>>) -> Case {
    let Input { table, schedule } = Input::of(bytes);
    let from = table.len();
    let part = |range: std::ops::Range<usize>| {
        let lines = match &lines {
            Some(lines) if range.is_empty() => Lines::Hex(lines.last().map(|line| vec![*line]).unwrap_or_default()),
            Some(lines) => Lines::Hex(lines[range].to_vec()),
            None => Lines::Bytes { from: range.start },
        };
        Origin { file: input::name(file).to_string(), lines }
    };
    let names = Table::of(&table).map(|table| Names::made_up(&table)).unwrap_or_default();
    let (table_from, schedule_from) = (part(0..from), part(from..from + schedule.len()));
    Case { table, schedule: Some(schedule), names, table_from, schedule_from, unfolded: Unfolded::default() }
}

/// A schedule behind the table is left out.
fn table_in_bytes(file: &str, bytes: Vec<u8>, lines: Option<Vec<usize>>) -> Result<Case, Failure> {
    let table = Input::of(bytes).table;
    let lines = lines.map_or(Lines::Bytes { from: 0 }, |lines| Lines::Hex(lines[..table.len()].to_vec()));
    let origin = Origin { file: input::name(file).to_string(), lines };
    match Table::of(&table) {
        Ok(decoded) => Ok(Case::of_table(table, Names::made_up(&decoded), origin)),
        Err(refusal) => {
            let faults = place::table::of_bytes(&table, refusal.number(), Called::default());
            Err(refused(refusal.number(), faults, |spot| origin.at(&table, spot)))
        }
    }
}

/// A schedule in a file of its own, on a table that there is already.
pub fn schedule_on(table: Vec<u8>, names: Names, file: &str, kind: Kind) -> Result<Case, Failure> {
    let origin = Origin { file: input::name(file).to_string(), lines: Lines::Bytes { from: 0 } };
    with_schedule(file, kind, Case::of_table(table, names, origin))
}

/// A schedule in a file of its own.
fn with_schedule(file: &str, kind: Kind, case: Case) -> Result<Case, Failure> {
    let (bytes, lines) = match content(kind, file)? {
        Content::Hex(bytes, lines) => (bytes, Lines::Hex(lines)),
        Content::Bytes(bytes) => (bytes, Lines::Bytes { from: 0 }),
        Content::Words(text, mut wrong) => {
            if let Some(line) = text.table() {
                wrong.push(Wrong::new(line, "found a table, expected a schedule alone: the table is in a file of its own"));
            }
            let plan = text.schedule.as_ref().map(|at| (at.line, assemble::plan(&at.it, &case.names, &mut wrong)));
            if plan.is_none() {
                wrong.push(Wrong::new(1, "found no `schedule`, expected one"));
            }
            all_right(file, wrong)?;
            let (heading, plan) = plan.unwrap_or_default();
            return Ok(case.planned(file, heading, &plan));
        }
    };
    let schedule_from = Origin { file: input::name(file).to_string(), lines };
    Ok(Case { schedule: Some(bytes), schedule_from, ..case })
}

/// All that is wrong, line by line.
pub fn all_right(file: &str, mut wrong: Vec<Wrong>) -> Result<(), Failure> {
    if wrong.is_empty() {
        return Ok(());
    }
    wrong.sort();
    wrong.dedup();
    Err(Failure::all_unread(wrong.iter().map(|Wrong { line, what }| format!("{}:{line}: {what}", input::name(file))).collect()))
}

/// How many places are named at most.
const NAMED: usize = 20;

/// A refusal with its places.
pub fn refused(number: u8, faults: Vec<Fault>, at: impl Fn(place::Spot) -> String) -> Failure {
    let mut why: Vec<String> = faults.iter().take(NAMED).map(|fault| format!("{}: {}", at(fault.spot), fault.what)).collect();
    if let Some(next) = faults.get(NAMED) {
        why.push(format!("{}: and {} more of the kind", at(next.spot), faults.len() - NAMED));
    }
    if why.is_empty() {
        why.push(format!("{}: {}", at(place::Spot::Length), proved::meaning(number)));
    }
    Failure::refused(number, why)
}

impl Case {
    fn of_table(table: Vec<u8>, names: Names, table_from: Origin) -> Case {
        let schedule_from = table_from.clone();
        Case { table, schedule: None, names, table_from, schedule_from, unfolded: Unfolded::default() }
    }

    /// With a schedule in words.
    fn planned(self, file: &str, heading: usize, plan: &[At<Step>]) -> Case {
        let unfolded = unfold(&self.table, plan);
        let lines = Lines::Schedule { heading, records: unfolded.lines.clone() };
        let schedule_from = Origin { file: input::name(file).to_string(), lines };
        Case { schedule: Some(Record::schedule(&unfolded.records)), schedule_from, unfolded, ..self }
    }

    /// Whether a run of the schedule would be accepted.
    fn judged(&self, schedule: &[u8]) -> Result<(), Failure> {
        proved::judge(&self.table, schedule).map_err(|number| self.refused(number))
    }

    /// A refusal of the table or of the schedule, with its places.
    pub fn refused(&self, number: u8) -> Failure {
        let schedule = self.schedule.as_deref().unwrap_or(&[]);
        match number {
            1 if self.table.is_empty() => {
                let empty = "the file is empty; a cabinet in words is wanted (`ks check --help` shows one), hex text or bytes";
                Failure::refused(number, vec![format!("{}: {empty}", self.table_from.at(&[], place::Spot::Length))])
            }
            1..=8 | 47 => {
                let faults = place::table::of_bytes(&self.table, number, Called::default());
                refused(number, faults, |spot| self.table_from.at(&self.table, spot))
            }
            _ => {
                let faults = place::schedule::of_bytes(schedule, number);
                refused(number, faults, |spot| self.schedule_from.at(schedule, spot))
            }
        }
    }

    /// Table and schedule as bytes.
    pub fn input(&self) -> Input {
        Input { table: self.table.clone(), schedule: self.schedule.clone().unwrap_or_default() }
    }

    /// How its parts are spoken of: by their names where the table is in words, and otherwise by their numbers.
    pub fn spoken(&self) -> Spoken<'_> {
        match self.table_from.lines {
            Lines::Table(_) => Spoken::by(&self.names),
            _ => Spoken::NUMBERS,
        }
    }

    /// The records of a schedule that was accepted.
    pub fn records(&self) -> Vec<Record> {
        self.schedule.as_deref().map_or(Vec::new(), |schedule| Record::read(schedule).expect("an accepted schedule"))
    }
}
