//! Modules 5 and 6: move sequences and patchable moves.

use super::No;
use super::words::{self, Place};

const MOVZ: u32 = 0xD280_0000;
const MOVN: u32 = 0x9280_0000;
const MOVK: u32 = 0xF280_0000;
const MOVN_SHORT: u32 = 0x1280_0000;
const MOVZ_32: u32 = 0x5280_0000;
const MOVK_32: u32 = 0x7280_0000;

/// The four halfwords, lowest first.
pub fn halfwords(value: u64) -> [u32; 4] {
    [0, 16, 32, 48].map(|at| (value >> at & 0xFFFF) as u32)
}

pub fn count_zero_half_words_64(value: u64) -> u32 {
    halfwords(value).into_iter().filter(|half| *half == 0).count() as u32
}

/// A wide move of 16 bits to halfword `place` of the register.
pub(super) fn wide(base: u32, place: usize, half: u32, rd: u32) -> u32 {
    base + ((place as u32) << 21) + (half << 5) + rd
}

/// The words for a value up to FFFFFFFF: the five cases in their order.
fn short(low: u32, high: u32, rd: u32) -> Vec<u32> {
    match (high, low) {
        (0, _) => vec![wide(MOVZ, 0, low, rd)],
        (0xFFFF, _) => vec![wide(MOVN_SHORT, 0, 0xFFFF - low, rd)],
        (_, 0) => vec![wide(MOVZ, 1, high, rd)],
        (_, 0xFFFF) => vec![wide(MOVN_SHORT, 1, 0xFFFF - high, rd)],
        _ => vec![wide(MOVZ, 0, low, rd), wide(MOVK, 1, high, rd)],
    }
}

/// The words for a value above FFFFFFFF.
fn long(value: u64, rd: u32) -> Vec<u32> {
    let inverted = count_zero_half_words_64(value) < count_zero_half_words_64(!value);
    let filler = if inverted { 0xFFFF } else { 0 };
    let places = halfwords(value).into_iter().enumerate();
    let rest: Vec<_> = places.filter(|(_, half)| *half != filler).collect();
    let Some((&(place, half), rest)) = rest.split_first() else {
        return vec![wide(MOVN, 0, 0, rd)];
    };
    let first = match inverted {
        false => wide(MOVZ, place, half, rd),
        true => wide(MOVN, place, 0xFFFF - half, rd),
    };
    let rest = rest.iter().map(|(place, half)| wide(MOVK, *place, *half, rd));
    std::iter::once(first).chain(rest).collect()
}

/// The words that move a value to a register. Refusal 2: the register is above 30.
pub fn move_words(value: u64, rd: u32) -> Result<Vec<u32>, No> {
    if rd > 30 {
        return Err(No(2));
    }
    let [low, high, ..] = halfwords(value);
    Ok(if value <= 0xFFFF_FFFF { short(low, high, rd) } else { long(value, rd) })
}

/// Order 15, 2, 8.
pub fn encode_mov_sequence64(run: &mut [u32], at: Place, value: u64, rd: u32) -> Result<u64, No> {
    words::put(run, at, move_words(value, rd))
}

/// Four words at 64, two at 32. Order 1, 2.
pub fn patchable_words(value: u64, size: u32, rd: u32) -> Result<Vec<u32>, No> {
    let (movz, movk, count) = match size {
        32 => (MOVZ_32, MOVK_32, 2),
        64 => (MOVZ, MOVK, 4),
        _ => return Err(No(1)),
    };
    if rd > 30 {
        return Err(No(2));
    }
    let halves = halfwords(value).into_iter().enumerate().take(count);
    let base = |place| if place == 0 { movz } else { movk };
    Ok(halves.map(|(place, half)| wide(base(place), place, half, rd)).collect())
}

/// Order 15, 1, 2, 8.
pub fn encode_patchable_mov_imm(
    run: &mut [u32],
    at: Place,
    value: u64,
    size: u32,
    rd: u32,
) -> Result<u64, No> {
    words::put(run, at, patchable_words(value, size, rd))
}
