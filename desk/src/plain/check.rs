//! Whether a list of feeds and steps is a plain run that explains a run: demand 3 of one run, from nothing. Equal words on the bus means
//! that channel, word, sender and place agree (W-212); what counts are the records that stand (W-214).
use super::cabinet::{Machine, Plain, PlainMove, Refused};
use crate::played::Played;
use kunzeastylus::{view, BusWord, Code, Move, ProcessEnd, UnreadWord};
use std::fmt;

/// Why a list of feeds and steps doesn't explain a run. Records and moves are named from 0, and said from 1.
#[derive(Clone, Copy, Debug, PartialEq, Eq)]
pub enum Fault {
    /// A carried word that no process sent.
    NoSender(usize),
    /// No word of the sender comes, however often it is stepped.
    NeverSends(usize),
    /// A process could go on where the run is quiet.
    GoesOn(u8),
    Refused {
        at: usize,
        plain: PlainMove,
        why: Refused,
    },
    /// Which of the feeds is another, or is missing or too many.
    Feeds(usize),
    /// Which word of the bus order is another, or is missing or too many.
    Bus(usize),
    /// A process that ends elsewhere.
    End(u8),
}

impl fmt::Display for Fault {
    fn fmt(&self, out: &mut fmt::Formatter) -> fmt::Result {
        match self {
            Fault::NoSender(record) => write!(out, "record {}: a carried word from no process", record + 1),
            Fault::NeverSends(record) => write!(out, "record {}: the plain cabinet sends no such word", record + 1),
            Fault::GoesOn(process) => write!(out, "the end is quiet, and the plain cabinet's process {process} could go on"),
            Fault::Refused { at, plain: PlainMove::Feed { channel, .. }, why } => {
                write!(out, "move {} of the plain run, a feed of channel {channel}, is refused: {why}", at + 1)
            }
            Fault::Refused { at, plain: PlainMove::Step { process }, why } => {
                write!(out, "move {} of the plain run, a step of process {process}, is refused: {why}", at + 1)
            }
            Fault::Feeds(at) => write!(out, "feed {} of the plain run is not that of the run", at + 1),
            Fault::Bus(at) => write!(out, "word {} on the plain cabinet's bus is not that of the run", at + 1),
            Fault::End(process) => write!(out, "process {process} of the plain cabinet ends elsewhere"),
        }
    }
}

impl std::error::Error for Fault {}

/// What was compared.
#[derive(Clone, Copy, Debug, PartialEq, Eq)]
pub struct Held {
    pub feeds: usize,
    pub steps: usize,
    pub words: usize,
    /// Whether the end was, too.
    pub quiet: bool,
}

/// The unread words of each process at a run's end, oldest first: channel and word.
pub type Inboxes = Vec<Vec<(u8, u32)>>;

/// The report says how many words are unread, the view which they are.
pub fn unread(played: &Played) -> Inboxes {
    let end = view(&played.bytes.table, &played.bytes.schedule).expect("a view of an accepted run");
    let word = |unread: &UnreadWord| (unread.channel as u8, unread.word);
    end.processes().iter().map(|process| process.inbox().iter().map(word).collect()).collect()
}

/// Makes the moves from the start, and compares feeds, bus order and, at a quiet end, each process, which can't step any further.
pub fn check(played: &Played, inboxes: &Inboxes, moves: &[PlainMove]) -> Result<Held, Fault> {
    let mut cabinet = Plain::new(&played.table);
    for (at, &plain) in moves.iter().enumerate() {
        cabinet.make(plain).map_err(|why| Fault::Refused { at, plain, why })?;
    }
    let fed = moves.iter().filter_map(|plain| match plain {
        PlainMove::Feed { channel, word } => Some((*channel, *word)),
        PlainMove::Step { .. } => None,
    });
    let fed: Vec<(u8, u32)> = fed.collect();
    differ(&fed, &fed_in(played)).map_or(Ok(()), |at| Err(Fault::Feeds(at)))?;
    differ(&cabinet.bus, &bus_order(played)).map_or(Ok(()), |at| Err(Fault::Bus(at)))?;
    if played.ran.quiet {
        let ends = played.ran.ends.iter().zip(inboxes);
        (0..).zip(ends).try_for_each(|(process, (end, inbox))| ended(&mut cabinet, process, end, inbox))?;
    }
    Ok(Held { feeds: fed.len(), steps: moves.len() - fed.len(), words: cabinet.bus.len(), quiet: played.ran.quiet })
}

/// "its feeds are, in order, the feeds of our list that answered 4"
fn fed_in(played: &Played) -> Vec<(u8, u32)> {
    let fed = played.standing().filter(|&i| played.kind(i) == Some(Move::Feed) && played.ran.answers[i].code == Code::OnTheBus);
    fed.map(|i| (played.records[i].a, played.records[i].word)).collect()
}

/// "The bus order is the answers 4", each with its origin.
fn bus_order(played: &Played) -> Vec<BusWord> {
    played.standing().filter_map(|i| played.ran.answers[i].bus).collect()
}

/// The first place at which two lists differ.
fn differ<T: PartialEq>(some: &[T], others: &[T]) -> Option<usize> {
    let shared = some.iter().zip(others).take_while(|(one, other)| one == other).count();
    (shared < some.len().max(others.len())).then_some(shared)
}

/// The process ends as the report says, with the unread words that the view has, "each inbox with channels and order", and "a step of any
/// process would be refused".
fn ended(cabinet: &mut Plain, process: u8, end: &ProcessEnd, unread: &[(u8, u32)]) -> Result<(), Fault> {
    let Machine { place, registers, inbox } = &cabinet.machines[usize::from(process)];
    let same_end = (*place, *registers, inbox.len()) == (end.place.into(), end.registers, end.unread.into());
    if !same_end || inbox != unread {
        return Err(Fault::End(process));
    }
    match cabinet.make(PlainMove::Step { process }) {
        Ok(_) => Err(Fault::GoesOn(process)),
        Err(_) => Ok(()),
    }
}
