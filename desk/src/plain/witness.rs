//! The plain run that demand 3 says exists, found: feeds as they come, each process stepped when a word of it is carried, and at a quiet
//! end until it can go no further. It lags behind our cabinet: what a step of the plain cabinet does depends on the order of the words in
//! the process's inbox and not on when it is made. What is found here is held against the run by `check`, which knows nothing of how it
//! was found.
use super::cabinet::{Did, Plain, PlainMove};
use super::check::Fault;
use crate::played::Played;
use kunzeastylus::{End, Move};

/// A move of the plain run, and the record of our run that it is made for; none at a quiet end.
#[derive(Clone, Copy, Debug, PartialEq, Eq)]
pub struct Beside {
    pub record: Option<usize>,
    pub plain: PlainMove,
}

struct Search<'t> {
    cabinet: Plain<'t>,
    /// No process makes more steps than our list has records.
    most: usize,
    found: Vec<Beside>,
}

/// The plain run of a run, over the records that stand.
pub fn find(played: &Played) -> Result<Vec<Beside>, Fault> {
    let mut search = Search { cabinet: Plain::new(&played.table), most: played.records.len(), found: Vec::new() };
    for i in played.standing() {
        let Some(on_the_bus) = played.ran.answers[i].bus else { continue };
        match (played.kind(i), on_the_bus.sender) {
            (Some(Move::Feed), _) => {
                let plain = PlainMove::Feed { channel: played.records[i].a, word: played.records[i].word };
                search.make(Some(i), plain)?;
            }
            (_, End::Process(sender)) => search.until_sent(i, sender)?,
            (_, End::Outside) => return Err(Fault::NoSender(i)),
        }
    }
    if played.ran.quiet {
        (0..played.ran.ends.len()).try_for_each(|process| search.until_refused(process as u8))?;
    }
    Ok(search.found)
}

impl Search<'_> {
    fn make(&mut self, record: Option<usize>, plain: PlainMove) -> Result<Did, Fault> {
        let did = self.cabinet.make(plain).map_err(|why| Fault::Refused { at: self.found.len(), plain, why })?;
        self.found.push(Beside { record, plain });
        Ok(did)
    }

    /// Steps a process until a word of it is on the bus.
    fn until_sent(&mut self, record: usize, process: u8) -> Result<(), Fault> {
        for _ in 0..self.most {
            if let Did::Put(_) = self.make(Some(record), PlainMove::Step { process })? {
                return Ok(());
            }
        }
        Err(Fault::NeverSends(record))
    }

    /// Steps a process until a step is refused.
    fn until_refused(&mut self, process: u8) -> Result<(), Fault> {
        for _ in 0..=self.most {
            if self.make(None, PlainMove::Step { process }).is_err() {
                return Ok(());
            }
        }
        Err(Fault::GoesOn(process))
    }
}
