//! The C entries, through the safe functions over them, beside the oracle: the Rust original and a plain model of document 01.

pub mod calls;
pub mod decoder;
pub mod judges;
pub mod label_speed;
pub mod labels;
pub mod library;
pub mod parts;
pub mod plain_labels;
pub mod plain_reader;
pub mod reader;
pub mod retargets;
pub mod small;
pub mod tally;
pub mod timing;
pub mod values;
pub mod work;

use vaimalofo::{Address, Place, WordPos};

/// A place of a run at base address 0.
#[inline]
pub const fn at_zero(position: usize) -> Place {
    Place { base: Address(0), position: WordPos(position) }
}

/// The whole words of a run of bytes.
pub fn words(run: &[u8]) -> Vec<u32> {
    let word = |four: &[u8]| u32::from_le_bytes([four[0], four[1], four[2], four[3]]);
    run.chunks_exact(4).map(word).collect()
}

/// Words into a run of bytes at a word position, low byte first.
#[inline]
pub fn put(run: &mut [u8], at: usize, words: &[u32]) {
    for (bytes, word) in run[4 * at..].chunks_exact_mut(4).zip(words) {
        bytes.copy_from_slice(&word.to_le_bytes());
    }
}
