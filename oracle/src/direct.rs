//! The original's functions as they are, for timing: no panic is caught and no list is made.

use crate::aarch64::encoder;

/// The words of a move, and how many they are.
pub fn encode_mov_sequence64(words: &mut [u32; 4], value: u64, rd: u32, x: u32) -> usize {
    encoder::encode_mov_sequence64(words, value, rd, x)
}

/// N, S and R.
pub fn encode_logical_imm(value: u64, width: u32) -> Option<[u32; 3]> {
    encoder::encode_logical_imm(value, width).map(|fields| [fields.n, fields.s, fields.r])
}
