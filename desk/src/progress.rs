//! What is said of work that takes over a second: how much of it is done, once a second.
use std::io::Write;
use std::time::{Duration, Instant};

/// How far some work is.
pub struct Progress {
    begun: Instant,
    said: u64,
}

impl Progress {
    pub fn begin() -> Progress {
        Progress { begun: Instant::now(), said: 0 }
    }

    /// Says on standard error how much is done, where a second or more has gone by since that was last said.
    pub fn tell(&mut self, name: &str, done: u32, all: u32, what: &str) {
        if self.due(self.begun.elapsed()) {
            let _ = writeln!(std::io::stderr(), "{name}: {done} of {all} {what}");
        }
    }

    /// Whether there is something to say after so long: once for each whole second.
    fn due(&mut self, elapsed: Duration) -> bool {
        let due = elapsed.as_secs() > self.said;
        self.said = self.said.max(elapsed.as_secs());
        due
    }
}

#[cfg(test)]
mod tests {
    use super::Progress;
    use std::time::Duration;

    #[test]
    fn once_a_second() {
        let mut progress = Progress::begin();
        let due = [0, 10, 999, 1_000, 1_001, 1_999, 2_500, 2_999, 7_000, 7_500].map(|ms| progress.due(Duration::from_millis(ms)));
        assert_eq!(due, [false, false, false, true, false, false, true, false, true, false]);
    }
}
