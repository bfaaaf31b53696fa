//! Module 1: field placing, and the lent run of words or bytes; with document 02's request g, by
//! which a place in a run has an address.

use super::No;

/// Bit n of the value; n of 32 or more is no.
pub fn bit_test(value: u32, n: u32) -> bool {
    (0..32).contains(&n) && u64::from(value) / (1 << n) % 2 == 1
}

/// The low n bits set; 64 or more sets them all.
pub fn lsb_mask(n: u32) -> u64 {
    (0..n.min(64)).map(|bit| 1 << bit).sum()
}

/// A place in a run: the address of the run's first word, and a position, counted in words.
#[derive(Clone, Copy, Debug, PartialEq, Eq)]
pub struct Place {
    pub base: u64,
    pub position: u64,
}

impl Place {
    /// Whether the base is a multiple of 4, as it must be.
    pub fn aligned(self) -> bool {
        self.base / 4 * 4 == self.base
    }

    /// The address of the word there: base plus four times the position, modulo 2^64.
    pub fn address(self) -> u64 {
        let sum = u128::from(self.base) + 4 * u128::from(self.position);
        (sum % (1 << 64)) as u64
    }
}

/// The words given, where they can be written from a place on in a run of `all` words. First
/// refusal 15: the base is no multiple of 4. Then the one given in place of words. Then 8: they do
/// not fit, or the position lies past the end.
fn fitting(all: usize, at: Place, given: Result<Vec<u32>, No>) -> Result<Vec<u32>, No> {
    if !at.aligned() {
        return Err(No(15));
    }
    let words = given?;
    let all = all as u64;
    if at.position > all || all - at.position < words.len() as u64 {
        return Err(No(8));
    }
    Ok(words)
}

/// Writes the words given from a place on, and says the position behind them. Every entry that
/// writes words does so here. Order 15, the refusal given in place of words, 8.
pub fn put(run: &mut [u32], at: Place, given: Result<Vec<u32>, No>) -> Result<u64, No> {
    let words = fitting(run.len(), at, given)?;
    let start = at.position as usize;
    run[start..start + words.len()].copy_from_slice(&words);
    Ok(at.position + words.len() as u64)
}

/// The same on bytes: a word is four, low byte first; a tail under four is no room.
pub fn put_bytes(run: &mut [u8], at: Place, given: Result<Vec<u32>, No>) -> Result<u64, No> {
    let words = fitting(run.len() / 4, at, given)?;
    let start = 4 * at.position as usize;
    for (i, word) in words.iter().enumerate() {
        run[start + 4 * i..start + 4 * i + 4].copy_from_slice(&word.to_le_bytes());
    }
    Ok(at.position + words.len() as u64)
}
