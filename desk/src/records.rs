//! How long schedules are.

/// The most records of a schedule.
pub const RECORDS_MOST: usize = 10_000;

/// The two length bytes of a schedule of so many bytes. A length that fits no field is of a schedule that is refused.
pub fn schedule_length(bytes: usize) -> [u8; 2] {
    ((bytes - 2).min(65_535) as u16).to_be_bytes()
}
