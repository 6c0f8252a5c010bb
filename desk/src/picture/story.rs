//! A run as a story: what each record did to whom, the cabinet after it, and the life of every word. It is made of what the proved run
//! told, its answers and the reports of its beginnings up to each crash; how it is drawn is none of its business.
use super::scene::{Entry, Scene, Standby, WordId};
use crate::follow::Spot;
use crate::form::names::Names;
use crate::played::Played;
use crate::proved;
use crate::words::Spoken;
use kunzeastylus::{Answer, Code, End, Fate, Move, Reason};

/// What a record did.
#[derive(Clone, Debug, PartialEq, Eq)]
pub enum Event {
    Fed(WordId),
    Took {
        process: u8,
        word: WordId,
    },
    Queued {
        process: u8,
        word: WordId,
    },
    HeldBack {
        process: u8,
        word: WordId,
    },
    Calculated {
        process: u8,
    },
    SyncIssued {
        process: u8,
    },
    ResyncIssued {
        process: u8,
    },
    Carried {
        board: u8,
        word: WordId,
    },
    SyncCarried {
        board: u8,
        process: u8,
        dropped: u32,
    },
    SyncUnbacked {
        board: u8,
        process: u8,
    },
    ResyncCarried {
        board: u8,
        process: u8,
    },
    Crashed {
        board: u8,
        lost: Vec<Entry>,
        moved: Vec<u8>,
    },
    Returned {
        board: u8,
    },
    /// A back, and the record that it took back, from 0.
    TookBack(usize),
    Refused,
}

/// A record: what it did, and the cabinet after it.
#[derive(Clone, Debug, PartialEq, Eq)]
pub struct Moment {
    pub event: Event,
    pub scene: Scene,
}

/// What became of a word at a record.
#[derive(Clone, Copy, Debug, PartialEq, Eq)]
pub enum Stage {
    Fed,
    Queued,
    QueuedAgain,
    Carried,
    /// Carried to the outside.
    Printed,
    Taken,
    TakenAgain,
    HeldBack,
    Lost,
}

/// A word, and what became of it at which record, from 0.
#[derive(Clone, Debug, PartialEq, Eq)]
pub struct Life {
    pub channel: u8,
    pub word: u32,
    pub stages: Vec<(usize, Stage)>,
}

#[derive(Clone, Debug, PartialEq, Eq)]
pub struct Story {
    pub played: Played,
    /// What programs and channels are called, where they have names of their own.
    pub names: Option<Names>,
    pub start: Scene,
    pub moments: Vec<Moment>,
    pub lives: Vec<Life>,
}

impl Story {
    /// The story of an accepted run.
    pub fn of(played: Played) -> Story {
        let start = Scene::start(&played.table);
        let mut telling = Telling { scene: start.clone(), played: &played, lives: Vec::new(), at: 0 };
        let mut moments: Vec<Moment> = Vec::new();
        for at in 0..played.records.len() {
            telling.at = at;
            let event = match played.ran.fates[at] {
                Fate::TookBack(taken) => {
                    telling.scene = taken.checked_sub(1).map_or(&start, |before| &moments[before].scene).clone();
                    Event::TookBack(taken)
                }
                _ => telling.event(played.ran.answers[at]),
            };
            telling.scene.settle();
            if let Event::Crashed { .. } = event {
                let beginning = proved::run_records(&played.bytes.table, &played.records[..=at]);
                telling.scene.reported(&beginning.expect("a beginning of an accepted run").ends, true);
            }
            moments.push(Moment { event, scene: telling.scene.clone() });
        }
        telling.scene.reported(&played.ran.ends, false);
        let lives = telling.lives;
        Story { names: None, start, moments, lives, played }
    }

    /// The same with these names, unless they are made up.
    pub fn named(self, names: &Names) -> Story {
        let own = *names != Names::made_up(&self.played.table);
        Story { names: own.then(|| names.clone()), ..self }
    }

    /// How programs and channels are spoken of: by those names, or by their numbers.
    pub fn spoken(&self) -> Spoken<'_> {
        self.names.as_ref().map_or(Spoken::NUMBERS, Spoken::by)
    }

    /// The cabinet before a record, from 0.
    pub fn before(&self, record: usize) -> &Scene {
        record.checked_sub(1).map_or(&self.start, |before| &self.moments[before].scene)
    }

    /// The first record that crashed a board, if there is one, of those that stand before all others.
    pub fn first_crash(&self) -> Option<usize> {
        let crashed = |&i: &usize| matches!(self.moments[i].event, Event::Crashed { .. });
        self.played.standing().find(crashed).or_else(|| (0..self.moments.len()).find(crashed))
    }
}

/// A story while it is told.
struct Telling<'t> {
    played: &'t Played,
    scene: Scene,
    lives: Vec<Life>,
    at: usize,
}

impl Telling<'_> {
    /// What the record did, by its move and its answer; the words go where it put them.
    fn event(&mut self, answer: Answer) -> Event {
        let record = self.played.records[self.at];
        let a = record.a;
        match self.played.kind(self.at) {
            _ if answer.code.refused() => Event::Refused,
            Some(Move::Feed) => self.fed(a, record.word),
            Some(Move::Step) => self.stepped(a, answer),
            Some(Move::Sync) => {
                let taken = std::mem::take(&mut self.scene.seats[usize::from(a)].taken);
                self.scene.queue(a, Entry::Sync { process: a, taken });
                Event::SyncIssued { process: a }
            }
            Some(Move::Resync) => self.resync(a),
            Some(Move::Carry) => self.carried(a, answer),
            Some(Move::Crash) => self.crashed(a),
            Some(Move::Return) => {
                self.scene.boards[usize::from(a)].dead = false;
                Event::Returned { board: a }
            }
            Some(Move::Back) | None => Event::Refused,
        }
    }

    fn fed(&mut self, channel: u8, word: u32) -> Event {
        let fed = self.born(channel, word, Stage::Fed);
        self.scene.arrive(self.played.table.channels[usize::from(channel)].1, fed);
        Event::Fed(fed)
    }

    /// A word that wasn't there before.
    fn born(&mut self, channel: u8, word: u32, stage: Stage) -> WordId {
        self.lives.push(Life { channel, word, stages: vec![(self.at, stage)] });
        self.lives.len() - 1
    }

    fn note(&mut self, word: WordId, stage: Stage) {
        self.lives[word].stages.push((self.at, stage));
    }

    fn stepped(&mut self, process: u8, answer: Answer) -> Event {
        self.moved(process, answer);
        let (channel, word) = (answer.a, answer.word);
        let lives = &self.lives;
        let is = |&id: &WordId| (lives[id].channel, lives[id].word) == (channel, word);
        let seat = &mut self.scene.seats[usize::from(process)];
        match answer.code {
            Code::Took => {
                let at = seat.unread.iter().position(|&id| lives[id].channel == channel).expect("a word that is taken is unread");
                let taken = seat.unread.remove(at);
                seat.taken.push(channel);
                let again = lives[taken]
                    .stages
                    .iter()
                    .any(|(at, stage)| *stage == Stage::Taken && self.played.ran.fates[*at] == Fate::Stands);
                self.note(taken, if again { Stage::TakenAgain } else { Stage::Taken });
                Event::Took { process, word: taken }
            }
            Code::Queued => {
                let again = (!seat.lost.is_empty() && is(&seat.lost[0])).then(|| seat.lost.remove(0));
                let word = again.unwrap_or_else(|| self.born(channel, word, Stage::Queued));
                if again.is_some() {
                    self.note(word, Stage::QueuedAgain);
                }
                self.scene.queue(process, Entry::Word(word));
                Event::Queued { process, word }
            }
            Code::HeldBack => {
                let held = seat.held.remove(0);
                self.note(held, Stage::HeldBack);
                Event::HeldBack { process, word: held }
            }
            _ => Event::Calculated { process },
        }
    }

    /// The instruction at its place is done.
    fn moved(&mut self, process: u8, answer: Answer) {
        let end = &mut self.scene.seats[usize::from(process)].end;
        let mut spot = Spot::from(*end);
        spot.step(self.played.table.processes[usize::from(process)].program[spot.place], answer);
        (end.place, end.registers) = (spot.place as u8, spot.registers);
    }

    fn resync(&mut self, process: u8) -> Event {
        let boards = &self.played.table.processes[usize::from(process)];
        let seat = &mut self.scene.seats[usize::from(process)];
        let other = if seat.end.board == boards.primary { boards.backup } else { boards.primary };
        seat.making = Some(Standby { board: other, saved: seat.unread.clone(), counted: Vec::new() });
        seat.taken.clear();
        self.scene.queue(process, Entry::Resync { process });
        Event::ResyncIssued { process }
    }

    fn carried(&mut self, board: u8, answer: Answer) -> Event {
        match self.scene.carry(board) {
            Entry::Word(word) => {
                let (sender, reader) = self.played.table.channels[usize::from(self.lives[word].channel)];
                self.scene.arrive(reader, word);
                if let End::Process(sender) = sender {
                    self.scene.seats[usize::from(sender)].backup.iter_mut().for_each(|backup| backup.counted.push(word));
                }
                self.note(word, if reader == End::Outside { Stage::Printed } else { Stage::Carried });
                Event::Carried { board, word }
            }
            Entry::Sync { process, taken } => {
                let lives = &self.lives;
                match self.scene.sync(process, &taken, |word| lives[word].channel) {
                    true => Event::SyncCarried { board, process, dropped: answer.word },
                    false => Event::SyncUnbacked { board, process },
                }
            }
            Entry::Resync { process } => {
                let seat = &mut self.scene.seats[usize::from(process)];
                seat.backup = seat.making.take();
                assert_eq!(answer.reason, Reason::ResyncCarried, "a fault of this program: it followed another entry");
                Event::ResyncCarried { board, process }
            }
        }
    }

    fn crashed(&mut self, board: u8) -> Event {
        let (lost, moved) = self.scene.crash(board);
        // What was lost before, and not yet sent again, comes behind.
        for entry in lost.iter().rev() {
            if let Entry::Word(word) = *entry {
                self.note(word, Stage::Lost);
                if let End::Process(sender) = self.played.table.channels[usize::from(self.lives[word].channel)].0 {
                    self.scene.seats[usize::from(sender)].lost.insert(0, word);
                }
            }
        }
        Event::Crashed { board, lost, moved }
    }
}
