//! The label line: one scanner, one numbering program and one printer program on two boards.
use crate::buffers::Buffers;
use crate::calls;
use crate::refusal::Refusal;
use crate::run::Run;

/// Bytes of a label line's table.
pub const LABEL_TABLE: usize = 84;

/// The scanner's channel: feeds of it are cartons, each by its code.
pub const SCANNER: u8 = 0;

/// The outlet's channel: for each carton its code, and then its serial.
pub const OUTLET: u8 = 2;

/// What is at the outlet for one carton. Only the last may still lack its serial.
#[derive(Clone, Copy, Debug, PartialEq, Eq, Hash)]
pub struct Label {
    pub code: u32,
    pub serial: Option<u32>,
}

/// The table of a first serial, or `Refusal::FirstSerial`.
pub fn label_table(first: u32) -> Result<[u8; LABEL_TABLE], Refusal> {
    let mut table = [0; LABEL_TABLE];
    Refusal::or(calls::ks_label_table(first, &mut table).into(), || table)
}

/// Runs a schedule on the table of a first serial, as [`run`](crate::run) does on any; [`Buffers::for_label_run`] makes what it is lent.
pub fn label_run<'b, B: AsMut<[u8]>>(
    first: u32,
    schedule: &'b [u8],
    buffers: &'b mut Buffers<B>,
) -> Result<Run<&'b [u8]>, Refusal> {
    let result = calls::ks_label_run(first, schedule, buffers.lend());
    Run::of(result, schedule, buffers.written(result, || 2))
}

/// The labels at the outlet, in order, of the records that stand.
pub fn labels<B: AsRef<[u8]>>(run: &Run<B>) -> Vec<Label> {
    let words: Vec<u32> = run.bus().filter(|on_the_bus| on_the_bus.channel == OUTLET).map(|on_the_bus| on_the_bus.word).collect();
    words.chunks(2).map(|label| Label { code: label[0], serial: label.get(1).copied() }).collect()
}
