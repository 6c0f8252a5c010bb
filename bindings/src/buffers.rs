//! The buffers that a run is lent, by name instead of by place, and how long they have to be.

/// What a run is lent to write to. `Buffers` alone owns its bytes and may be lent again and again; a caller with memory of its own lends
/// `Buffers<&mut [u8]>`. Longer ones than needed will do: the bytes beyond are untouched, and a refused run touches none.
#[derive(Clone, Copy, Debug, Default, PartialEq, Eq, Hash)]
pub struct Buffers<B = Vec<u8>> {
    /// Six bytes a record: code, a, word.
    pub answers: B,
    /// One byte a record: why it has its answer.
    pub reasons: B,
    /// 20 bytes a process: what became of it.
    pub report: B,
    /// Two bytes a record: sender and place of the word that it put on the bus.
    pub origins: B,
}

/// How long each is.
pub type Lengths = Buffers<usize>;

impl Lengths {
    /// No run is refused for these.
    pub const ENOUGH: Lengths = Buffers { answers: usize::MAX, reasons: usize::MAX, report: usize::MAX, origins: usize::MAX };

    /// What a run of so many records on so many processes needs.
    pub fn needed(records: usize, processes: usize) -> Lengths {
        Buffers { answers: 6 * records, reasons: records, report: 20 * processes, origins: 2 * records }
    }
}

impl Buffers {
    /// As long as a run of so many records on so many processes needs; all bytes are 0.
    pub fn new(records: usize, processes: usize) -> Buffers {
        Lengths::needed(records, processes).map(|length| vec![0; length])
    }

    /// As long as a run of this schedule on this table needs.
    pub fn for_run(table: &[u8], schedule: &[u8]) -> Buffers {
        Buffers::new(records(schedule), table.get(4).map_or(0, |&processes| processes.into()))
    }

    /// As long as a run of this schedule on the label line needs.
    pub fn for_label_run(schedule: &[u8]) -> Buffers {
        Buffers::new(records(schedule), 2)
    }
}

/// How many records a schedule has. One of another length, or of over 10,000 records, is refused before any buffer is looked at.
fn records(schedule: &[u8]) -> usize {
    (schedule.len() / 6).min(10_000)
}

impl<B> Buffers<B> {
    /// Something of each.
    fn map<T>(self, each: impl Fn(B) -> T) -> Buffers<T> {
        let Buffers { answers, reasons, report, origins } = self;
        Buffers { answers: each(answers), reasons: each(reasons), report: each(report), origins: each(origins) }
    }
}

impl<B: AsRef<[u8]>> Buffers<B> {
    pub fn lengths(&self) -> Lengths {
        self.borrow().map(<[u8]>::len)
    }

    /// The same, borrowed to be read.
    pub(crate) fn borrow(&self) -> Buffers<&[u8]> {
        Buffers {
            answers: self.answers.as_ref(),
            reasons: self.reasons.as_ref(),
            report: self.report.as_ref(),
            origins: self.origins.as_ref(),
        }
    }
}

impl<B: AsMut<[u8]>> Buffers<B> {
    /// The same, borrowed to be written.
    pub(crate) fn lend(&mut self) -> Buffers<&mut [u8]> {
        Buffers {
            answers: self.answers.as_mut(),
            reasons: self.reasons.as_mut(),
            report: self.report.as_mut(),
            origins: self.origins.as_mut(),
        }
    }

    /// What an accepted run wrote there, by what it returned, which has the records; nothing of a refused one.
    pub(crate) fn written(&mut self, result: u64, processes: impl FnOnce() -> u8) -> Buffers<&[u8]> {
        let lengths = match result as u8 {
            0 => Lengths::needed((result >> 32) as usize, processes().into()),
            _ => Lengths::default(),
        };
        let Buffers { answers, reasons, report, origins } = self.lend();
        Buffers {
            answers: &answers[..lengths.answers],
            reasons: &reasons[..lengths.reasons],
            report: &report[..lengths.report],
            origins: &origins[..lengths.origins],
        }
    }
}
