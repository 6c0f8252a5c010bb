//! Random records and calls: what is fit and what is unfit in each way, arguments in and out of range, takes that are possible and not.
use crate::call::{Call, Lent, HEAD, SAVED};
use crate::model::{Record, COUNT_MOST, WORDS_MOST};
use outside::random::Random;

/// The most words, as a number of a head.
const MOST: u32 = WORDS_MOST as u32;

/// The ways of being unfit, as bits that can be combined.
pub const WORDS: u32 = 1;
pub const SLOT: u32 = 2;
pub const COUNT: u32 = 4;
pub const PLACE: u32 = 8;

fn any_word(random: &mut Random) -> u32 {
    let words = [0, 1, u32::MAX, random.below(100), random.word(), random.word()];
    random.pick(&words)
}

fn packed(slot: u32, word: u32) -> u64 {
    u64::from(slot) << 32 | u64::from(word)
}

/// Another slot for the saved word i.
fn put_on(lent: &mut Lent, i: usize, slot: u32) {
    lent.saved[i] = packed(slot, lent.saved[i] as u32);
}

/// A record that is fit, with any numbers past its words.
pub fn fit(random: &mut Random) -> Lent {
    let saved = [0; SAVED].map(|_: u64| packed(random.word(), random.word()));
    let mut lent = Lent { saved, head: [0; HEAD].map(|_: u32| random.word()) };
    let some = random.below(MOST + 1);
    let len = random.pick(&[0, 1, 24, 48, 49, MOST - 1, MOST, some, some, some]);
    let count = random.below(COUNT_MOST + 1);
    let place = random.below(65);
    lent.head[0] = len;
    lent.head[1] = random.pick(&[0, 16, 17, COUNT_MOST - 1, COUNT_MOST, count, count]);
    lent.head[2] = random.pick(&[0, 64, place, place]);
    // On one slot only, in turn, or mixed.
    let one = random.below(4);
    let order = random.below(4);
    for i in 0..len {
        let slot = match order {
            0 => one,
            1 => i % 4,
            _ => random.below(4),
        };
        lent.saved[i as usize] = packed(slot, any_word(random));
    }
    lent
}

/// A record that is unfit in just the ways that are asked for.
pub fn unfit(random: &mut Random, ways: u32) -> Lent {
    let mut lent = fit(random);
    if ways & WORDS != 0 {
        // Every number counts now, so each is first put on a slot.
        (0..SAVED).for_each(|i| put_on(&mut lent, i, i as u32 % 4));
        lent.head[0] = random.over(MOST);
    }
    if ways & SLOT != 0 {
        if lent.head[0] == 0 {
            lent.head[0] = 1;
        }
        let within = lent.head[0].min(MOST);
        for _ in 0..1 + random.below(3) {
            let i = random.below(within) as usize;
            let slot = random.over(3);
            put_on(&mut lent, i, slot);
        }
    }
    if ways & COUNT != 0 {
        lent.head[1] = random.over(COUNT_MOST);
    }
    if ways & PLACE != 0 {
        lent.head[2] = random.over(64);
    }
    lent
}

pub fn arrive(random: &mut Random) -> Call {
    let slot = if random.once_in(8) { random.over(3) } else { random.below(4) };
    Call::Arrive { slot, word: any_word(random) }
}

/// How many words a sync takes on each slot.
#[derive(Clone, Copy, Debug, PartialEq, Eq)]
pub enum Takes {
    None,
    Possible,
    Everything,
    OneTooMany,
    FarTooMany,
}

pub const TAKES: [Takes; 5] = [Takes::None, Takes::Possible, Takes::Everything, Takes::OneTooMany, Takes::FarTooMany];

pub fn sync(random: &mut Random, record: &Record, takes: Takes) -> Call {
    let place = if random.once_in(8) { random.over(64) } else { random.below(65) };
    let registers = [0; 4].map(|_: u32| any_word(random));
    let mut taken = [0, 1, 2, 3].map(|slot| {
        let saved = record.saved(slot);
        match takes {
            Takes::None => 0,
            Takes::Everything => saved,
            _ => random.below(saved + 1),
        }
    });
    let slot = random.below(4);
    let saved = record.saved(slot);
    match takes {
        Takes::OneTooMany => taken[slot as usize] = saved + 1,
        Takes::FarTooMany => taken[slot as usize] = random.over(saved),
        _ => (),
    }
    Call::Sync { place, registers, taken }
}
