//! A run in words: a line for each record with its answer, and beneath it what that did or what would help; then each board, each process, and
//! whether the cabinet ended quiet.
//!
//! Everything is what the proved calls give: the answers, the view before a record and behind it, and for what a step would answer now the run
//! of one record more. Views are made for the lines that are shown, since each costs a run of what stands before it.
mod asked;
mod done;
mod end;
mod given;
mod lines;
mod refused;
mod summary;

use crate::follow::{Followed, Spot};
use crate::played::Played;
use crate::proved;
use crate::records::{schedule_length, RECORDS_MOST};
use crate::words::{self, Spoken};
pub use asked::{Asked, Only};
pub use given::{Given, Put, Source};
use kunzeastylus::{
    Answer, Cabinet, Code, End, Fate, Lengths, Move, Operation, Process, ProcessView, Record, Refusal, Run, View,
};
use std::fmt::Write;

/// A table and a schedule, as `./run` takes them one behind the other.
#[derive(Clone, Debug, PartialEq, Eq)]
pub struct Input {
    pub table: Vec<u8>,
    pub schedule: Vec<u8>,
}

/// A crash of a board that is put before record `before` of a schedule, from 1.
#[derive(Clone, Copy, Debug, PartialEq, Eq)]
pub struct Pull {
    pub board: u8,
    pub before: usize,
}

impl Input {
    /// The table is as long as its length bytes say, and the rest is the schedule.
    pub fn of(mut bytes: Vec<u8>) -> Input {
        let length = bytes.first_chunk::<2>().map_or(0, |field| usize::from(u16::from_be_bytes(*field)));
        let schedule = bytes.split_off(bytes.len().min(2 + length));
        Input { table: bytes, schedule }
    }

    /// How many records an accepted schedule has, or why the run is refused.
    pub fn records(&self) -> Result<usize, Refusal> {
        kunzeastylus::judge(&self.table, &self.schedule, Lengths::ENOUGH).map(|()| self.schedule.len() / 6)
    }

    /// Puts a crash into an accepted schedule.
    pub fn pull(&mut self, pull: Pull) {
        let at = 3 + 6 * (pull.before - 1);
        let crash = Record::crash(pull.board).bytes();
        self.schedule.splice(at..at, crash);
        self.schedule.splice(..2, schedule_length(self.schedule.len()));
    }

    /// The first records of an accepted schedule.
    fn beginning(&self, records: usize) -> Vec<u8> {
        let mut schedule = self.schedule[..self.schedule.len().min(3 + 6 * records)].to_vec();
        let length = schedule_length(schedule.len());
        schedule[..2].copy_from_slice(&length);
        schedule
    }

    /// The run of the first records of an accepted schedule.
    pub fn run(&self, records: usize) -> Result<Run, Refusal> {
        Cabinet::new(&self.table[..])?.run(&self.beginning(records))
    }

    /// The whole cabinet behind the first records of an accepted schedule.
    pub fn view(&self, records: usize) -> Result<Box<View>, Refusal> {
        kunzeastylus::view(&self.table, &self.beginning(records))
    }
}

/// An accepted run that is put into words.
pub struct Explaining<'e> {
    pub played: &'e Played,
    pub given: &'e Given,
    pub spoken: Spoken<'e>,
    /// Where the process of each record is before it; none where the record is of no process.
    spots: Vec<Option<Spot>>,
}

impl<'e> Explaining<'e> {
    pub fn new(played: &'e Played, given: &'e Given, spoken: Spoken<'e>) -> Explaining<'e> {
        let mut followed = Followed::new(&played.table);
        let mut spots = Vec::new();
        for (i, (record, answer)) in played.records.iter().zip(&played.ran.answers).enumerate() {
            let of_process = matches!(record.kind(), Some(Move::Step | Move::Sync | Move::Resync));
            spots.push(followed.spot(record.a).filter(|_| of_process));
            let report =
                || played.bytes.run(i + 1).expect("a beginning of an accepted run").processes().map(Spot::from).collect();
            followed.record(record.kind(), record.a, *answer, report);
        }
        let ends: Vec<Spot> = played.ran.ends.iter().copied().map(Spot::from).collect();
        assert_eq!(followed.spots(), ends, "a fault of this program: it followed the run to another end");
        Explaining { played, given, spoken, spots }
    }

    /// The same for what is said of its last record alone, whose process is here before it: nothing is followed.
    pub fn of_last(played: &'e Played, given: &'e Given, spoken: Spoken<'e>, spot: Option<Spot>) -> Explaining<'e> {
        let mut spots = vec![None; played.records.len()];
        if let Some(last) = spots.last_mut() {
            *last = spot;
        }
        Explaining { played, given, spoken, spots }
    }

    /// What a record did that its answer doesn't say, or what would help where it was refused, a line for each thing.
    pub fn beneath(&self, record: usize) -> Vec<String> {
        match self.played.ran.answers[record].code.refused() {
            true => refused::helps(self, record),
            false => done::did(self, record),
        }
    }

    /// The whole run in words.
    pub fn text(&self, asked: &Asked) -> String {
        let mut text = String::new();
        writeln!(text, "{}", words::heading(self.played.records.len(), &self.played.table)).unwrap();
        match asked.summary {
            true => summary::summary(self, &mut text),
            false => lines::lines(self, asked, &mut text),
        }
        end::end(self, &mut text);
        text
    }

    /// What was put in and refused, each with the option that asked for it.
    pub fn refused_puts(&self) -> Vec<String> {
        let answers = self.given.sources.iter().zip(&self.played.ran.answers).enumerate();
        let refused = answers.filter_map(|(i, (source, answer))| match source {
            Source::Put(put) if answer.code.refused() => Some((i, *put, *answer)),
            _ => None,
        });
        let said = refused.map(|(i, put, answer)| {
            let why: Vec<String> = refused::helps(self, i).into_iter().map(|line| format!("; {line}")).collect();
            format!("{}: {}{}", put.option(self.spoken), self.spoken.answer(answer, None), why.concat())
        });
        said.collect()
    }

    /// The instruction of a step, before it; none of other records, and where the process has halted.
    fn operation(&self, record: usize) -> Option<Operation> {
        let spot = self.spots[record].filter(|_| self.played.kind(record) == Some(Move::Step))?;
        self.played.table.processes[usize::from(self.played.records[record].a)].program.get(spot.place).copied()
    }

    /// The whole cabinet behind the first records.
    fn view(&self, records: usize) -> Box<View> {
        self.played.bytes.view(records).expect("a beginning of an accepted run")
    }

    /// Whether a crash moved a process, or took its backup.
    fn moved_or_bare(&self, crash: usize, process: u8) -> bool {
        let (view, board) = (self.view(crash), u32::from(self.played.records[crash].a));
        let process = &view.processes()[usize::from(process)];
        process.board == board || process.backup.board == board
    }

    /// What a step of a process would answer now. A run that has no room for a record more is asked without its records that changed nothing;
    /// none where that is no shorter.
    fn step_now(&self, process: u8) -> Option<Answer> {
        let Played { records, ran, bytes, .. } = self.played;
        let changed = |i: &usize| ran.fates[*i] == Fate::Stands && !ran.answers[*i].code.refused();
        let mut more = match records.len() < RECORDS_MOST {
            true => records.clone(),
            false => (0..records.len()).filter(changed).map(|i| records[i]).collect(),
        };
        more.push(Record::step(process));
        proved::answers_from(&bytes.table, &more, more.len() - 1).first().copied()
    }

    /// The process that sends on a channel; none where the outside does.
    fn sender(&self, channel: u32) -> Option<u32> {
        process_of(self.played.table.channels[channel as usize].0)
    }

    /// The process that reads a channel; none where the outside does.
    fn reader(&self, channel: u32) -> Option<u32> {
        process_of(self.played.table.channels[channel as usize].1)
    }

    /// Of a process's two boards in the table the one on which it doesn't run.
    fn other_board(&self, process: &ProcessView, p: u32) -> u32 {
        let Process { primary, backup, .. } = &self.played.table.processes[p as usize];
        u32::from(if process.board == u32::from(*primary) { *backup } else { *primary })
    }

    /// The instruction that a process of this cabinet does next; none where it has halted.
    fn next(&self, view: &View, p: u32) -> Option<Operation> {
        let place = view.processes()[p as usize].place;
        self.played.table.processes[p as usize].program.get(place as usize).copied()
    }

    /// The channels that a process reads, by its slots.
    fn slots(&self, process: u32) -> Vec<u8> {
        (0..)
            .zip(&self.played.table.channels)
            .filter(|(_, (_, reader))| process_of(*reader) == Some(process))
            .map(|(k, _)| k)
            .collect()
    }
}

fn process_of(end: End) -> Option<u32> {
    match end {
        End::Outside => None,
        End::Process(p) => Some(p.into()),
    }
}

/// Whether a step that gets this answer leaves the cabinet quiet: it has halted, or waits for a word.
fn waits(answer: Answer) -> bool {
    matches!(answer.code, Code::Halted | Code::NoWord)
}
