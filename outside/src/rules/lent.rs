//! The buffers that a run is lent, in the order in which it is lent them. A further one is a field here, a line in `map`, `with` and `list`,
//! and what is needed of it.

/// Something for each lent buffer: its length, its bytes, its name.
#[derive(Clone, Copy, Debug, Default, PartialEq, Eq)]
pub struct Lent<T> {
    pub answers: T,
    pub reasons: T,
    pub report: T,
    pub origins: T,
}

pub const BUFFERS: usize = 4;

/// What each is called, and how many bytes of it belong together: of a record, and for the report of a process.
pub const NAMES: Lent<&str> = Lent { answers: "answers", reasons: "reasons", report: "report", origins: "origins" };
pub const PIECES: Lent<usize> = Lent { answers: 6, reasons: 1, report: 20, origins: 2 };

impl<T> Lent<T> {
    pub fn map<U>(self, mut change: impl FnMut(T) -> U) -> Lent<U> {
        Lent {
            answers: change(self.answers),
            reasons: change(self.reasons),
            report: change(self.report),
            origins: change(self.origins),
        }
    }

    pub fn with<U>(self, other: Lent<U>) -> Lent<(T, U)> {
        Lent {
            answers: (self.answers, other.answers),
            reasons: (self.reasons, other.reasons),
            report: (self.report, other.report),
            origins: (self.origins, other.origins),
        }
    }

    pub fn list(self) -> [T; BUFFERS] {
        [self.answers, self.reasons, self.report, self.origins]
    }

    pub fn all(value: T) -> Lent<T>
    where
        T: Clone,
    {
        Lent { answers: value.clone(), reasons: value.clone(), report: value.clone(), origins: value }
    }

    pub fn each(&self) -> Lent<&T> {
        Lent { answers: &self.answers, reasons: &self.reasons, report: &self.report, origins: &self.origins }
    }

    pub fn each_mut(&mut self) -> Lent<&mut T> {
        Lent { answers: &mut self.answers, reasons: &mut self.reasons, report: &mut self.report, origins: &mut self.origins }
    }
}

impl Lent<usize> {
    /// The lengths that a run of so many records on so many processes needs, which are those of what it writes.
    pub fn needed(records: usize, processes: usize) -> Lent<usize> {
        let pieces = Lent { report: processes, ..Lent::all(records) };
        pieces.with(PIECES).map(|(pieces, bytes)| pieces * bytes)
    }

    /// Each longer by so many bytes.
    pub fn and(self, more: usize) -> Lent<usize> {
        self.map(|length| length + more)
    }

    /// Some of them one byte shorter, if they have any: each set of some, and none at first.
    pub fn shortened(self) -> impl Iterator<Item = Lent<usize>> {
        let bits = Lent { answers: 0, reasons: 1, report: 2, origins: 3 };
        (0..1 << BUFFERS).map(move |set| self.with(bits).map(|(length, bit)| length.saturating_sub(set >> bit & 1)))
    }

    /// "11 answer buffer under six bytes a record; 12 report buffer under 20 bytes a process"; W-206: "A buffer for this list under one
    /// byte a record makes the run answer 11."; W-212: "51, that buffer is under two bytes a record, after 12".
    pub fn judge(self, needed: Lent<usize>) -> Result<(), u8> {
        if self.answers < needed.answers || self.reasons < needed.reasons {
            return Err(11);
        }
        if self.report < needed.report {
            return Err(12);
        }
        if self.origins < needed.origins {
            return Err(51);
        }
        Ok(())
    }

    /// Buffers of these lengths, filled.
    pub fn filled(self, byte: u8) -> Lent<Vec<u8>> {
        self.map(|length| vec![byte; length])
    }
}

impl Lent<Vec<u8>> {
    pub fn lend(&mut self) -> Lent<&mut [u8]> {
        self.each_mut().map(Vec::as_mut_slice)
    }
}
