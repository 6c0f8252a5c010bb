//! The calls of the proved library as include/kunzeastylus.h declares them; this is the one place in Rust that does. A slice is a pointer and a
//! length, an array of a fixed length a pointer alone. [`calls`](crate::calls) has each for slices, and the crate itself for types.
use crate::backup::{HEAD, SAVED, SYNC_REPORT};
use crate::label::LABEL_TABLE;

#[link(name = "kunzeastylus", kind = "static")]
extern "C" {
    pub fn ks_abi() -> u32;

    pub fn ks_run(
        table: *const u8,
        table_len: usize,
        schedule: *const u8,
        schedule_len: usize,
        answers: *mut u8,
        answers_len: usize,
        reasons: *mut u8,
        reasons_len: usize,
        report: *mut u8,
        report_len: usize,
        origins: *mut u8,
        origins_len: usize,
    ) -> u64;

    pub fn ks_judge(
        table: *const u8,
        table_len: usize,
        schedule: *const u8,
        schedule_len: usize,
        answers_len: usize,
        reasons_len: usize,
        report_len: usize,
        origins_len: usize,
    ) -> u32;

    pub fn ks_backup_new(head: *mut [u32; HEAD]);

    pub fn ks_backup_arrive(saved: *mut [u64; SAVED], head: *mut [u32; HEAD], slot: u32, word: u32) -> u32;

    pub fn ks_backup_count(saved: *const [u64; SAVED], head: *mut [u32; HEAD]) -> u32;

    pub fn ks_backup_sync(
        saved: *mut [u64; SAVED],
        head: *mut [u32; HEAD],
        place: u32,
        registers: *const [u32; 4],
        taken: *const [u32; 4],
        report: *mut [u32; SYNC_REPORT],
    ) -> u32;

    pub fn ks_backup_take_over(saved: *const [u64; SAVED], head: *const [u32; HEAD], handed: *mut [u32; HEAD]) -> u32;

    pub fn ks_label_table(first: u32, table: *mut [u8; LABEL_TABLE]) -> u32;

    pub fn ks_label_run(
        first: u32,
        schedule: *const u8,
        schedule_len: usize,
        answers: *mut u8,
        answers_len: usize,
        reasons: *mut u8,
        reasons_len: usize,
        report: *mut u8,
        report_len: usize,
        origins: *mut u8,
        origins_len: usize,
    ) -> u64;

    pub fn ks_sweep(table: *const u8, table_len: usize, schedule: *const u8, schedule_len: usize) -> u64;

    pub fn ks_view(
        table: *const u8,
        table_len: usize,
        schedule: *const u8,
        schedule_len: usize,
        out: *mut u32,
        out_len: usize,
    ) -> u32;

    pub fn ks_table_write(
        version: u32,
        boards: u32,
        processes: u32,
        channels: u32,
        ends: *const u32,
        ends_len: usize,
        placements: *const u32,
        placements_len: usize,
        limits: *const u32,
        limits_len: usize,
        instructions: *const u32,
        instructions_len: usize,
        out: *mut u8,
        out_len: usize,
    ) -> u64;

    pub fn ks_table_apart(
        table: *const u8,
        table_len: usize,
        ends: *mut u32,
        ends_len: usize,
        placements: *mut u32,
        placements_len: usize,
        limits: *mut u32,
        limits_len: usize,
        instructions: *mut u32,
        instructions_len: usize,
    ) -> u64;
}
