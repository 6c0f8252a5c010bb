//! The names of answers and of their reasons, as `expect` takes them beside their numbers.
use kunzeastylus::{Answer, Code, Reason};

/// Every code with its name.
pub const CODES: [(Code, &str); 25] = [
    (Code::Done, "done"),
    (Code::Took, "took"),
    (Code::Queued, "queued"),
    (Code::HeldBack, "held-back"),
    (Code::OnTheBus, "bus"),
    (Code::SyncCarried, "synced"),
    (Code::SyncUnbacked, "sync-lost"),
    (Code::TakenBack, "taken-back"),
    (Code::BadRecord, "bad-record"),
    (Code::BadIndex, "not-in-table"),
    (Code::BoardDead, "dead"),
    (Code::Halted, "halted"),
    (Code::NoWord, "no-word"),
    (Code::OwesSync, "owes-sync"),
    (Code::QueueFull, "full"),
    (Code::ChannelHeld, "held"),
    (Code::NoBackup, "no-backup"),
    (Code::SyncWaiting, "sync-waits"),
    (Code::QueueEmpty, "empty"),
    (Code::NotFromOutside, "not-outside"),
    (Code::SomeUnbacked, "some-unbacked"),
    (Code::BoardLive, "live"),
    (Code::NotReady, "not-ready"),
    (Code::HasBackup, "has-backup"),
    (Code::NoneKept, "none-kept"),
];

/// Every reason with its name: together with its code, a name says which it is.
pub const REASONS: [(Reason, &str); 40] = [
    (Reason::Calculated, "calculated"),
    (Reason::SyncIssued, "sync"),
    (Reason::BoardCrashed, "crash"),
    (Reason::ReturnedOrResync, "return-or-resync"),
    (Reason::Took, "took"),
    (Reason::Queued, "queued"),
    (Reason::HeldBack, "held-back"),
    (Reason::Carried, "carried"),
    (Reason::Fed, "fed"),
    (Reason::SyncCarried, "sync"),
    (Reason::ResyncCarried, "resync"),
    (Reason::SyncUnbacked, "sync-lost"),
    (Reason::TakenBack, "taken-back"),
    (Reason::NoSuchMove, "move"),
    (Reason::WordNotZero, "word"),
    (Reason::NoSuchProcess, "program"),
    (Reason::NoSuchBoard, "board"),
    (Reason::NoSuchChannel, "channel"),
    (Reason::CarryOfDead, "carry"),
    (Reason::CrashOfDead, "crash"),
    (Reason::Halted, "halted"),
    (Reason::NoWordForTake, "take"),
    (Reason::NoWordForFirst, "first"),
    (Reason::OwesForActs, "acts"),
    (Reason::OwesForInstructions, "instructions"),
    (Reason::QueueFullForSend, "send"),
    (Reason::QueueFullForSync, "sync"),
    (Reason::QueueFullForResync, "resync"),
    (Reason::HeldForSend, "send"),
    (Reason::HeldForFeed, "feed"),
    (Reason::NoBackup, "no-backup"),
    (Reason::SyncWaiting, "sync"),
    (Reason::ResyncWaiting, "resync"),
    (Reason::QueueEmpty, "empty"),
    (Reason::NotFromOutside, "not-outside"),
    (Reason::SomeUnbacked, "some-unbacked"),
    (Reason::BoardLive, "live"),
    (Reason::NotReady, "not-ready"),
    (Reason::HasBackup, "has-backup"),
    (Reason::NoneKept, "none-kept"),
];

/// An answer that is expected, or at which something ends.
#[derive(Clone, Copy, Debug, PartialEq, Eq)]
pub enum Outcome {
    Code(Code),
    /// Whatever refuses it.
    Refused,
}

impl Outcome {
    pub fn named(name: &str) -> Option<Outcome> {
        let code = || CODES.iter().find(|(_, other)| *other == name).map(|(code, _)| Outcome::Code(*code));
        (name == "refused").then_some(Outcome::Refused).or_else(code)
    }

    pub fn numbered(number: u32) -> Option<Outcome> {
        u8::try_from(number).ok().and_then(|number| Code::try_from(number).ok()).map(Outcome::Code)
    }

    pub fn is(self, answer: Answer) -> bool {
        match self {
            Outcome::Code(code) => answer.code == code,
            Outcome::Refused => answer.code.refused(),
        }
    }

    /// Whether it is a refusal.
    pub fn refuses(self) -> bool {
        match self {
            Outcome::Code(code) => code.refused(),
            Outcome::Refused => true,
        }
    }
}

/// The name of a code.
pub fn name(code: Code) -> &'static str {
    CODES.iter().find(|(other, _)| *other == code).map_or("", |(_, name)| name)
}

/// The reason that is expected.
#[derive(Clone, Copy, Debug, PartialEq, Eq)]
pub struct Why {
    pub reason: Reason,
}

impl Why {
    /// By its byte in the list of reasons.
    pub fn numbered(number: u32) -> Option<Why> {
        u8::try_from(number).ok().and_then(|number| Reason::try_from(number).ok()).map(|reason| Why { reason })
    }

    /// By its name, which is of an answer with this outcome.
    pub fn named(name: &str, outcome: Outcome) -> Option<Why> {
        let of = |reason: Reason| match outcome {
            Outcome::Code(code) => reason.code() == code,
            Outcome::Refused => reason.code().refused(),
        };
        let mut found = REASONS.iter().filter(|(reason, other)| *other == name && of(*reason));
        match (found.next(), found.next()) {
            (Some((reason, _)), None) => Some(Why { reason: *reason }),
            _ => None,
        }
    }
}

/// The names that a reason may have behind an outcome.
pub fn reasons(outcome: Outcome) -> Vec<&'static str> {
    REASONS.iter().map(|(_, name)| *name).filter(|name| Why::named(name, outcome).is_some()).collect()
}

#[cfg(test)]
mod tests {
    use super::{name, Outcome, Why, CODES, REASONS};
    use kunzeastylus::{Code, Reason};

    #[test]
    fn every_one_has_a_name() {
        assert_eq!(CODES.map(|(code, _)| code), Code::ALL);
        assert_eq!(REASONS.map(|(reason, _)| reason), Reason::ALL);
        for (code, known) in CODES {
            assert_eq!((Outcome::named(known), name(code)), (Some(Outcome::Code(code)), known));
        }
        for (reason, known) in REASONS {
            assert_eq!(Why::named(known, Outcome::Code(reason.code())), Some(Why { reason }), "{known}");
        }
    }
}
