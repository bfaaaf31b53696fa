//! Module 8. All 256 floats at each width with neighbours by one bit: every bit down to the
//! fraction's zeros, and of these two for each float, so that all come. All 256 byte masks with a
//! neighbour by one bit in each byte. All asked of the encoder and of the predicate. Values under
//! other high bits, wrong widths and random values.

use super::random::Random;
use super::{List, U32, WRONG_WIDTHS};
use crate::document::immediates;
use crate::replay::request::{Request, entry::*};

pub const LIST: List = List {
    number: 8,
    entries: &[ENCODE_FLOAT, IS_FP16, IS_FP32, IS_FP64, ENCODE_BYTE_MASK, IS_BYTE_MASK],
    requests,
    any,
};

/// The value that an 8-bit float spells at one of the three widths.
fn float(imm8: u64, width: u64) -> u64 {
    immediates::expand_float(imm8 as u32, width as u32).unwrap_or_default()
}

/// The value that a byte mask spells.
fn mask(imm8: u64) -> u64 {
    (0..8).map(|i| ((imm8 >> i & 1) * 0xFF) << (8 * i)).sum()
}

fn requests() -> Vec<Request> {
    let mut random = Random::new(8);
    let mut list = vec![];
    for imm8 in 0..256 {
        for (width, is_float) in [(16, IS_FP16), (32, IS_FP32), (64, IS_FP64)] {
            for value in near(float(imm8, width), &float_bits(imm8, width)) {
                list.push(Request::new(ENCODE_FLOAT, &[value, width]));
                list.push(Request::new(is_float, &[value]));
            }
        }
        let bits: Vec<u64> = (0..8).map(|byte| 8 * byte + (imm8 + byte) % 8).collect();
        for value in near(mask(imm8), &bits) {
            list.push(Request::new(ENCODE_BYTE_MASK, &[value]));
            list.push(Request::new(IS_BYTE_MASK, &[value]));
        }
    }
    for value in [0, 1, 0x3C00, 0x3F80_0000, U32, 0x3FF0_0000_0000_0000, u64::MAX] {
        let widths = [16, 32, 64].into_iter().chain(WRONG_WIDTHS);
        list.extend(widths.map(|width| Request::new(ENCODE_FLOAT, &[value, width])));
    }
    for entry in LIST.entries {
        list.extend((0..100).map(|_| any(*entry, &mut random)));
    }
    list
}

/// A value, and it with one of the bits flipped.
fn near(value: u64, bits: &[u64]) -> Vec<u64> {
    let flipped = bits.iter().map(|bit| value ^ 1 << bit);
    std::iter::once(value).chain(flipped).collect()
}

/// The bits of a float above the fraction's zeros, and two of these that move with the number.
fn float_bits(imm8: u64, width: u64) -> Vec<u64> {
    let zeros = [6, 19, 48][(width.ilog2() - 4) as usize];
    let some = (0..2).map(|part| (imm8 + part * zeros / 2) % zeros);
    (zeros..width).chain(some).collect()
}

fn any(entry: u64, random: &mut Random) -> Request {
    let width = match entry {
        IS_FP16 => 16,
        IS_FP32 => 32,
        IS_FP64 => 64,
        _ => random.one_of(&[16, 32, 64]),
    };
    let imm8 = random.below(256);
    let spelled = if entry < ENCODE_BYTE_MASK { float(imm8, width) } else { mask(imm8) };
    let value = match random.below(8) {
        0 => random.value(),
        1 | 2 => spelled ^ 1 << random.below(64),
        3 | 4 if width < 64 => spelled ^ random.value() << width,
        _ => spelled,
    };
    match entry {
        ENCODE_FLOAT if random.below(16) == 0 => Request::new(entry, &[value, random.number()]),
        ENCODE_FLOAT => Request::new(entry, &[value, width]),
        _ => Request::new(entry, &[value]),
    }
}
