//! What was done, as a schedule in words.
use super::Stepper;
use crate::form::print;
use kunzeastylus::Fate;

impl Stepper {
    /// Every record given, in order, backs too: a run of it has the answers that were shown. What was taken back is marked.
    pub fn schedule(&self) -> String {
        let (done, fates) = (self.done(), self.ran().fates);
        let behind = |from: usize, many: usize| {
            let taken = |fate: &Fate| matches!(fate, Fate::TakenBackBy(_));
            match fates[from..from + many].iter().filter(|fate| taken(fate)).count() {
                0 => String::new(),
                all if all == many => "# taken back".to_string(),
                some => format!("# {some} of them taken back"),
            }
        };
        print::schedule(&done, &self.names, behind)
    }
}
