//! Every place to pull a board: a schedule with the crash of each board at each of its places, and how these runs end.
use crate::calls;
use crate::refusal::Refusal;

/// How many of the runs end in each way: of a schedule of n records on B boards (n + 1) × B in all.
#[derive(Clone, Copy, Debug, Default, PartialEq, Eq, Hash)]
pub struct Sweep {
    pub quiet: u32,
    /// Unquiet, with some hold-back left.
    pub held: u32,
    /// Unquiet, with none.
    pub open: u32,
}

impl Sweep {
    /// All runs.
    pub fn runs(self) -> u32 {
        self.quiet + self.held + self.open
    }
}

/// Puts the crash of each board at each of the n + 1 places of a schedule of n records, and counts how these runs end. Refused as a run would
/// be, but for its buffers; then with `Refusal::Unswept`.
pub fn sweep(table: &[u8], schedule: &[u8]) -> Result<Sweep, Refusal> {
    let result = calls::ks_sweep(table, schedule);
    let count = |at: u32| (result >> at & 65_535) as u32;
    Refusal::or(result, || Sweep { quiet: count(16), held: count(32), open: count(48) })
}
