//! The exported calls of the proved library on slices, with their results as they are: a number, or several in one. Each but `ks_abi` first sees
//! that the library is the one that [`sys`] declares, and panics where it isn't; none asks anything else of its caller.
#![allow(unsafe_code)] // the only one in this crate
use crate::abi::check_abi;
use crate::backup::{HEAD, SAVED, SYNC_REPORT};
use crate::buffers::{Buffers, Lengths};
use crate::label::LABEL_TABLE;
use crate::sys;
use crate::view::{View, VIEW};

/// The number of the calls that the library has.
pub fn ks_abi() -> u32 {
    // SAFETY: the call asks nothing, and has been the same in every library that has it.
    unsafe { sys::ks_abi() }
}

/// Another library would be lent what it doesn't expect.
fn same_library() {
    check_abi().unwrap_or_else(|other| panic!("{other}"));
}

/// The number by which a run is refused or 0, plus 256 times quiet, plus 2^32 times the records.
pub fn ks_run(table: &[u8], schedule: &[u8], lent: Buffers<&mut [u8]>) -> u64 {
    same_library();
    let Buffers { answers, reasons, report, origins } = lent;
    // SAFETY: six slices that don't overlap, each with its own length; the first two are only read. The call asks nothing else.
    unsafe {
        sys::ks_run(
            table.as_ptr(),
            table.len(),
            schedule.as_ptr(),
            schedule.len(),
            answers.as_mut_ptr(),
            answers.len(),
            reasons.as_mut_ptr(),
            reasons.len(),
            report.as_mut_ptr(),
            report.len(),
            origins.as_mut_ptr(),
            origins.len(),
        )
    }
}

/// The number by which a run is refused, or 0.
pub fn ks_judge(table: &[u8], schedule: &[u8], lengths: Lengths) -> u32 {
    same_library();
    let Buffers { answers, reasons, report, origins } = lengths;
    // SAFETY: two slices, each with its own length; the call only reads them and asks nothing else.
    unsafe { sys::ks_judge(table.as_ptr(), table.len(), schedule.as_ptr(), schedule.len(), answers, reasons, report, origins) }
}

/// The head of a backup record as it starts.
pub fn ks_backup_new(head: &mut [u32; HEAD]) {
    same_library();
    // SAFETY: an array of the length that the call wants. It asks nothing else; nor do the four below, whose arrays don't overlap.
    unsafe { sys::ks_backup_new(head) }
}

/// The backup record's number, or 0; of the three below too.
pub fn ks_backup_arrive(saved: &mut [u64; SAVED], head: &mut [u32; HEAD], slot: u32, word: u32) -> u32 {
    same_library();
    // SAFETY: as above.
    unsafe { sys::ks_backup_arrive(saved, head, slot, word) }
}

pub fn ks_backup_count(saved: &[u64; SAVED], head: &mut [u32; HEAD]) -> u32 {
    same_library();
    // SAFETY: as above.
    unsafe { sys::ks_backup_count(saved, head) }
}

pub fn ks_backup_sync(
    saved: &mut [u64; SAVED],
    head: &mut [u32; HEAD],
    place: u32,
    registers: &[u32; 4],
    taken: &[u32; 4],
    report: &mut [u32; SYNC_REPORT],
) -> u32 {
    same_library();
    // SAFETY: as above.
    unsafe { sys::ks_backup_sync(saved, head, place, registers, taken, report) }
}

pub fn ks_backup_take_over(saved: &[u64; SAVED], head: &[u32; HEAD], handed: &mut [u32; HEAD]) -> u32 {
    same_library();
    // SAFETY: as above.
    unsafe { sys::ks_backup_take_over(saved, head, handed) }
}

/// 46, or 0 and the table of a first serial.
pub fn ks_label_table(first: u32, table: &mut [u8; LABEL_TABLE]) -> u32 {
    same_library();
    // SAFETY: an array of the length that the call wants. It asks nothing else.
    unsafe { sys::ks_label_table(first, table) }
}

/// As `ks_run` of the table of a first serial, or 46.
pub fn ks_label_run(first: u32, schedule: &[u8], lent: Buffers<&mut [u8]>) -> u64 {
    same_library();
    let Buffers { answers, reasons, report, origins } = lent;
    // SAFETY: five slices that don't overlap, each with its own length; the first is only read. The call asks nothing else.
    unsafe {
        sys::ks_label_run(
            first,
            schedule.as_ptr(),
            schedule.len(),
            answers.as_mut_ptr(),
            answers.len(),
            reasons.as_mut_ptr(),
            reasons.len(),
            report.as_mut_ptr(),
            report.len(),
            origins.as_mut_ptr(),
            origins.len(),
        )
    }
}

/// The number by which a sweep is refused or 0, plus 2^16 times quiet, 2^32 times held and 2^48 times open.
pub fn ks_sweep(table: &[u8], schedule: &[u8]) -> u64 {
    same_library();
    // SAFETY: two slices, each with its own length; the call only reads them and asks nothing else.
    unsafe { sys::ks_sweep(table.as_ptr(), table.len(), schedule.as_ptr(), schedule.len()) }
}

/// The number by which a view is refused, or 0 and its numbers at the front of a list of any length.
pub fn ks_view(table: &[u8], schedule: &[u8], out: &mut [u32]) -> u32 {
    same_library();
    // SAFETY: three slices that don't overlap, each with its own length; the first two are only read. The call asks nothing else.
    unsafe { sys::ks_view(table.as_ptr(), table.len(), schedule.as_ptr(), schedule.len(), out.as_mut_ptr(), out.len()) }
}

/// The numbers of a view, where they stand.
pub(crate) fn numbers_of(view: &mut View) -> &mut [u32; VIEW] {
    let view: *mut View = view;
    // SAFETY: a `View` is VIEW numbers of 32 bits and nothing between them, any of which it may hold; it is borrowed for as long as they are.
    unsafe { &mut *view.cast() }
}

/// The number by which lists or a buffer are refused or 0, plus 2^32 times the table's length. The counts are boards, processes and channels, the
/// lists ends, placements, limits and instructions.
pub fn ks_table_write(version: u32, counts: [u32; 3], lists: [&[u32]; 4], out: &mut [u8]) -> u64 {
    same_library();
    let [boards, processes, channels] = counts;
    let [ends, placements, limits, instructions] = lists;
    // SAFETY: five slices that don't overlap, each with its own length; the first four are only read. The call asks nothing else.
    unsafe {
        sys::ks_table_write(
            version,
            boards,
            processes,
            channels,
            ends.as_ptr(),
            ends.len(),
            placements.as_ptr(),
            placements.len(),
            limits.as_ptr(),
            limits.len(),
            instructions.as_ptr(),
            instructions.len(),
            out.as_mut_ptr(),
            out.len(),
        )
    }
}

/// The number by which a table or the lists lent for it are refused or 0, plus 256 times its boards, 2^16 times its processes, 2^24 times
/// its channels, 2^32 times its instructions and 2^48 times its version. The lists are ends, placements, limits and instructions.
pub fn ks_table_apart(table: &[u8], lists: [&mut [u32]; 4]) -> u64 {
    same_library();
    let [ends, placements, limits, instructions] = lists;
    // SAFETY: five slices that don't overlap, each with its own length; the first is only read. The call asks nothing else.
    unsafe {
        sys::ks_table_apart(
            table.as_ptr(),
            table.len(),
            ends.as_mut_ptr(),
            ends.len(),
            placements.as_mut_ptr(),
            placements.len(),
            limits.as_mut_ptr(),
            limits.len(),
            instructions.as_mut_ptr(),
            instructions.len(),
        )
    }
}
