//! The rules by which values are made. Everything starts from the oracle's seed, so a run can be repeated.

use oracle::lists::random::Random;

/// The value that a legal triple of fields spells, taken from a random run, element and turn.
pub fn mask(random: &mut Random) -> u64 {
    let size = 2u32 << random.below(6);
    let run = 1 + random.below(u64::from(size) - 1) as u32;
    let turn = random.below(u64::from(size)) as u32;
    let low = |bits: u32| if bits == 64 { u64::MAX } else { (1 << bits) - 1 };
    let element = match turn {
        0 => low(run),
        _ => (low(run) >> turn | low(run) << (size - turn)) & low(size),
    };
    (0..64 / size).fold(0, |value, copy| value | element << (copy * size))
}

/// Four halfwords, each 0, FFFF or any.
pub fn halfwords(random: &mut Random) -> u64 {
    (0..4).fold(0, |value, _| {
        let half = match random.below(3) {
            0 => 0,
            1 => 0xFFFF,
            _ => random.value() & 0xFFFF,
        };
        value << 16 | half
    })
}

/// A base address from 2^64 - 32 on: of a run of eight words there, the last ones reach 2^64 or go around it.
pub fn high_base(random: &mut Random) -> u64 {
    !3 - 4 * random.below(8)
}

/// Value number i of the mixed ones, by i modulo 8: any 64 bits; halfwords of 0, FFFF or any (twice, the second cut to 32 bits); any 32
/// bits; a mask; a mask with one bit turned over; a power of two, less 0 to 2; and the complement of a number below 2^20.
pub fn mixed(random: &mut Random, i: u64) -> u64 {
    match i % 8 {
        0 => random.value(),
        1 => halfwords(random),
        2 => halfwords(random) & 0xFFFF_FFFF,
        3 => random.value() & 0xFFFF_FFFF,
        4 => mask(random),
        5 => mask(random) ^ 1 << random.below(64),
        6 => (1u64 << random.below(64)).wrapping_sub(random.below(3)),
        _ => !random.below(1 << 20),
    }
}
