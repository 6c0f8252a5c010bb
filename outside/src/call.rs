//! The proved library's calls with lent buffers by their names here.
use crate::rules::lent::Lent;
use kunzeastylus::{calls, Buffers};

pub use calls::{ks_label_table, ks_sweep, ks_view};

impl<T> From<Lent<T>> for Buffers<T> {
    fn from(lent: Lent<T>) -> Buffers<T> {
        let Lent { answers, reasons, report, origins } = lent;
        Buffers { answers, reasons, report, origins }
    }
}

pub fn ks_run(table: &[u8], schedule: &[u8], lent: Lent<&mut [u8]>) -> u64 {
    calls::ks_run(table, schedule, lent.into())
}

pub fn ks_judge(table: &[u8], schedule: &[u8], lengths: Lent<usize>) -> u32 {
    calls::ks_judge(table, schedule, lengths.into())
}

pub fn ks_label_run(first: u32, schedule: &[u8], lent: Lent<&mut [u8]>) -> u64 {
    calls::ks_label_run(first, schedule, lent.into())
}
