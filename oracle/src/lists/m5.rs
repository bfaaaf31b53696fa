//! Module 5. Values of every class of halfwords (0, FFFF, other, in all four places), both sides of
//! each power of two, a sample of those that one short MOVN spells, and 5,000 random ones; several
//! registers; runs with every room at every position; sequences of 1 to 4 words and wrong registers
//! from every base address. Counts of zero halfwords.

use super::random::Random;
use super::{List, U32, placed, room};
use crate::replay::request::{Request, entry::*};

pub const LIST: List = List { number: 5, entries: &[MOVE, COUNT_ZERO_HALF_WORDS], requests, any };

/// Values whose sequences have 1, 1, 2, 3 and 4 words, and all ones.
const SAMPLES: [u64; 6] =
    [0, 0xFFFF_FFFE, 0x1234_5678, 0x1_0002_0003, 0x1_0002_0003_0004, u64::MAX];

fn requests() -> Vec<Request> {
    let mut random = Random::new(5);
    let mut list = vec![];
    for value in values(&mut random) {
        let [len, position] = [4 + random.below(2), random.below(2)];
        list.push(Request::new(MOVE, &[value, random.below(31), len, position]));
    }
    for value in SAMPLES {
        for rd in [0, 1, 30, 31, 32, 63, U32] {
            list.push(Request::new(MOVE, &[value, rd, 4, 0]));
        }
        for len in 0..=8 {
            for position in (0..=len + 1).chain([1 << 32, u64::MAX - 1, u64::MAX]) {
                list.push(Request::new(MOVE, &[value, 7, len, position]));
            }
        }
    }
    for value in (0..81).map(|class| of_class(class, &mut random)).chain(SAMPLES) {
        list.push(Request::new(COUNT_ZERO_HALF_WORDS, &[value]));
    }
    list.extend((0..300).map(|_| any(COUNT_ZERO_HALF_WORDS, &mut random)));
    let mut given = vec![[SAMPLES[3], 7], [0, 31], [u64::MAX, 32], [SAMPLES[4], U32]];
    given.extend(SAMPLES.map(|value| [value, 30]));
    list.extend(placed(MOVE, &given));
    list
}

/// A value whose halfwords are 0, FFFF or other, by the digits of a number in base 3.
fn of_class(class: u64, random: &mut Random) -> u64 {
    let mut other = || [1, 0x8000, 0xFFFE, 1 + random.below(0xFFFE)][random.below(4) as usize];
    let half = |place: u32| [0, 0xFFFF, other()][(class / 3u64.pow(place) % 3) as usize];
    [0, 1, 2, 3].map(half).into_iter().rev().fold(0, |value, half| value << 16 | half)
}

fn values(random: &mut Random) -> Vec<u64> {
    let mut values = vec![];
    for _ in 0..6 {
        values.extend((0..81).map(|class| of_class(class, random)));
    }
    for power in (0..64).map(|bit| 1u64 << bit) {
        values.extend([power.wrapping_sub(1), power, power + 1, !power]);
    }
    for _ in 0..300 {
        values
            .extend([0xFFFF_0000 + random.below(1 << 16), (random.below(1 << 16) << 16) + 0xFFFF]);
    }
    values.extend((0..2500).map(|_| random.value()));
    values.extend((0..2500).map(|_| of_class(random.below(81), random)));
    values
}

fn any(entry: u64, random: &mut Random) -> Request {
    let value = match random.below(8) {
        0 => random.value(),
        1 => random.number(),
        2 => u64::MAX - random.number(),
        _ => of_class(random.below(81), random),
    };
    let rd = if random.below(8) == 0 { random.number() } else { random.below(31) };
    let [len, position] = room(random);
    match entry {
        MOVE => Request::new(entry, &[value, rd, len, position]),
        _ => Request::new(entry, &[value]),
    }
}
