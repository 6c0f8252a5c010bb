//! Damage to sound tables and schedules: bytes changed, ends changed to near their limits, lengths wrong, cut short, made longer.
use super::generate::with_length;
use crate::random::Random;

/// What is done to the bytes of a table or a schedule.
#[derive(Clone, Copy, Debug, PartialEq, Eq)]
pub enum Damage {
    None,
    /// One to three bytes anywhere become any others.
    Bytes,
    /// One to three bytes that decide something become others, near the limits.
    Limits,
    /// The length field becomes another.
    Field,
    /// Cut short, the length field as it was.
    Cut,
    /// Cut short, the length field true.
    CutTrue,
    /// Longer, the length field as it was.
    Long,
    /// Longer, the length field true.
    LongTrue,
    /// A table: one process reads most channels. A schedule: over 10,000 records, or as many as that.
    Crowded,
    /// A table: the other version's head for one process, or a limit that is none. A schedule: as `Limits`.
    Heads,
}

pub const DAMAGES: [Damage; 10] = [
    Damage::None,
    Damage::Bytes,
    Damage::Limits,
    Damage::Field,
    Damage::Cut,
    Damage::CutTrue,
    Damage::Long,
    Damage::LongTrue,
    Damage::Crowded,
    Damage::Heads,
];

/// The limits of anything, and the numbers beside them.
const NEAR: [u8; 18] = [0, 1, 2, 3, 4, 5, 6, 7, 15, 16, 17, 31, 32, 33, 64, 65, 254, 255];

fn near(random: &mut Random, byte: u8) -> u8 {
    match random.below(8) {
        0 => byte.wrapping_add(1),
        1 => byte.wrapping_sub(1),
        2 => random.below(256) as u8,
        _ => random.pick(&NEAR),
    }
}

/// The places of a sound table's bytes that decide something: header, pairs, boards, limit and n, instructions.
fn deciding(random: &mut Random, table: &[u8]) -> usize {
    let pairs = 2 * table[5] as usize;
    // A process record begins with boards and n, in version 2 with the limit between them.
    let long = if table[2] == 1 { 3 } else { 4 };
    let mut heads = Vec::new();
    let mut at = 6 + pairs;
    while at < table.len() {
        heads.push(at);
        at += long + 6 * table[at + long - 1] as usize;
    }
    let head = random.pick(&heads);
    let n = table[head + long - 1] as u32;
    match random.below(9) {
        0 => 2 + random.below(4) as usize,
        1..=2 => 6 + random.below(pairs as u32) as usize,
        3..=4 => head + random.below(long as u32 - 1) as usize,
        5 => head + long - 1,
        _ if n > 0 => head + long + 6 * random.below(n) as usize + random.pick(&[0, 1, 2, 5, 5]),
        _ => head,
    }
}

fn change_bytes(random: &mut Random, bytes: &mut [u8]) {
    for _ in 0..1 + random.below(3) {
        let at = random.below(bytes.len() as u32) as usize;
        bytes[at] ^= 1 + random.below(255) as u8;
    }
}

fn change_field(random: &mut Random, bytes: &mut [u8]) {
    let length = (bytes.len() - 2) as u16;
    let any = random.below(65_536) as u16;
    let other = [
        length.wrapping_add(1),
        length.wrapping_sub(1),
        length.swap_bytes(),
        length.wrapping_add(2),
        0,
        6260,
        6261,
        6276,
        6277,
        any,
    ];
    bytes[..2].copy_from_slice(&random.pick(&other).to_be_bytes());
}

fn cut(random: &mut Random, bytes: &mut Vec<u8>, least: usize) {
    let some = random.below((bytes.len() - least) as u32) as usize + least;
    let last = bytes.len() - 1;
    let early = least + random.below((last - least + 1).min(6) as u32) as usize;
    bytes.truncate(random.pick(&[last, some, some, early]));
}

fn lengthen(random: &mut Random, bytes: &mut Vec<u8>) {
    let most = random.pick(&[1, 6, 20, 6000]);
    for _ in 0..1 + random.below(most) {
        bytes.push(random.below(256) as u8);
    }
}

/// Damage that needs no knowledge of the bytes.
fn damage(random: &mut Random, mut bytes: Vec<u8>, damage: Damage) -> Vec<u8> {
    match damage {
        Damage::Bytes => change_bytes(random, &mut bytes),
        Damage::Field => change_field(random, &mut bytes),
        Damage::Cut => cut(random, &mut bytes, 0),
        Damage::CutTrue => cut(random, &mut bytes, 2),
        Damage::Long | Damage::LongTrue => lengthen(random, &mut bytes),
        Damage::None | Damage::Limits | Damage::Crowded | Damage::Heads => (),
    }
    if matches!(damage, Damage::CutTrue | Damage::LongTrue) {
        bytes = with_length(bytes);
    }
    bytes
}

pub fn damage_table(random: &mut Random, mut table: Vec<u8>, how: Damage) -> Vec<u8> {
    match how {
        Damage::Limits => {
            let places: Vec<usize> = (0..1 + random.below(3)).map(|_| deciding(random, &table)).collect();
            places.into_iter().for_each(|at| table[at] = near(random, table[at]));
        }
        Damage::Crowded => {
            let (processes, channels) = (table[4] as u32, table[5] as usize);
            let reader = random.below(processes) as u8;
            (0..channels).filter(|_| !random.once_in(4)).for_each(|k| table[7 + 2 * k] = reader);
        }
        Damage::Heads => return other_heads(random, table),
        _ => (),
    }
    damage(random, table, how)
}

/// One process of a sound table gets a limit that is none or, all lengths true, loses or gets a limit byte; or the version alone becomes
/// the other one.
fn other_heads(random: &mut Random, mut table: Vec<u8>) -> Vec<u8> {
    let long = if table[2] == 1 { 3 } else { 4 };
    let mut at = 6 + 2 * table[5] as usize;
    for _ in 0..random.below(table[4] as u32) {
        at += long + 6 * table[at + long - 1] as usize;
    }
    match random.below(4) {
        0 => table[2] = 3 - table[2],
        1..=2 if long == 4 => table[at + 2] = random.pick(&[0, 17, 18, 32, 128, 255]),
        _ if long == 4 => {
            table.remove(at + 2);
        }
        _ => table.insert(at + 2, random.pick(&[0, 1, 8, 16, 17])),
    }
    with_length(table)
}

pub fn damage_schedule(random: &mut Random, mut schedule: Vec<u8>, how: Damage) -> Vec<u8> {
    match how {
        Damage::Limits | Damage::Heads => schedule[2] = near(random, schedule[2]),
        Damage::Crowded => {
            let records = random.pick(&[9_999, 10_000, 10_001, 10_002, 10_921]);
            schedule.resize(3 + 6 * records, 0);
            schedule = with_length(schedule);
        }
        _ => (),
    }
    damage(random, schedule, how)
}
