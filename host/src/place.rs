//! Where words stand: positions, addresses, distances, and the words of a run.

use core::iter::FusedIterator;
use core::slice::ChunksExact;

use crate::ffi;

/// A position in a run, counted in words of four bytes.
///
/// ```
/// use vaimalofo::WordPos;
///
/// let third = WordPos(2);
/// assert_eq!(4 * third.0, 8);
/// ```
#[derive(Clone, Copy, Debug, PartialEq, Eq, PartialOrd, Ord, Hash)]
pub struct WordPos(pub usize);

/// An address in bytes, of where the code will run; the lent bytes need not be there.
///
/// ```
/// use vaimalofo::Address;
///
/// assert!(Address(0x1000) < Address(0x1004));
/// ```
#[derive(Clone, Copy, Debug, PartialEq, Eq, PartialOrd, Ord, Hash)]
pub struct Address(pub u64);

/// A signed distance in bytes, from the instruction; for ADRP, from its page.
///
/// ```
/// use vaimalofo::ByteDistance;
///
/// let one_word_back = ByteDistance(-4);
/// assert!(one_word_back < ByteDistance(0));
/// ```
#[derive(Clone, Copy, Debug, PartialEq, Eq, PartialOrd, Ord, Hash)]
pub struct ByteDistance(pub i64);

/// A place in code: the address of the run's first word, and the position in the run. A function that writes takes a base address that
/// is a multiple of 4, and answers [`Error::Unaligned`](crate::Error::Unaligned) before all else to another.
///
/// ```
/// use vaimalofo::{Address, Place, WordPos};
///
/// let third = Place { base: Address(0x1000), position: WordPos(2) };
/// assert_eq!(third.address(), Address(0x1008));
/// // Addresses count modulo 2^64.
/// let past_the_last = Place { base: Address(0xFFFFFFFFFFFFFFFC), position: WordPos(1) };
/// assert_eq!(past_the_last.address(), Address(0));
/// ```
#[derive(Clone, Copy, Debug, PartialEq, Eq, PartialOrd, Ord, Hash)]
pub struct Place {
    /// The address of the run's first word.
    pub base: Address,
    /// Where in the run.
    pub position: WordPos,
}

impl Place {
    /// The first word of a run that has this address.
    ///
    /// ```
    /// use vaimalofo::{Address, Place, WordPos};
    ///
    /// let start = Place::at(Address(0x1000));
    /// assert_eq!(start, Place { base: Address(0x1000), position: WordPos(0) });
    /// ```
    #[inline]
    pub const fn at(base: Address) -> Place {
        Place { base, position: WordPos(0) }
    }

    /// The address of the word here: the base and four times the position, modulo 2^64.
    ///
    /// ```
    /// use vaimalofo::{Address, Place, WordPos};
    ///
    /// assert_eq!(Place { base: Address(0x1000), position: WordPos(3) }.address(), Address(0x100C));
    /// ```
    #[inline]
    pub const fn address(self) -> Address {
        Address(self.base.0.wrapping_add((self.position.0 as u64).wrapping_mul(4)))
    }

    /// As many words further on in the same run.
    #[inline]
    pub(crate) const fn past(self, words: usize) -> Place {
        Place { base: self.base, position: WordPos(self.position.0 + words) }
    }
}

/// The whole words of a run of bytes, in their order; a tail under four bytes is left out.
///
/// ```
/// use vaimalofo::words;
///
/// assert!(words(&[0x20, 0, 0, 0xD2, 0xFF]).eq([0xD2000020]));
/// assert_eq!(words(&[0; 11]).len(), 2);
/// ```
#[inline]
pub fn words(bytes: &[u8]) -> Words<'_> {
    Words(bytes.chunks_exact(4))
}

/// The bytes of a run of words, for the functions that write: the other way around than [`words`].
///
/// ```
/// use vaimalofo::{bytes, mov, Address, Place, Reg};
///
/// let mut code = [0; 2];
/// mov(bytes(&mut code), Place::at(Address(0x1000)), 0x12345678, Reg::X0)?;
/// assert_eq!(code, [0xD28ACF00, 0xF2A24680]);
/// # Ok::<(), vaimalofo::Error>(())
/// ```
#[inline]
pub fn bytes(words: &mut [u32]) -> &mut [u8] {
    ffi::bytes(words)
}

/// The iterator of [`words`].
///
/// ```
/// let mut words = vaimalofo::words(&[1, 0, 0, 0, 2, 0, 0, 0, 3, 0, 0, 0]);
/// assert_eq!((words.next(), words.next_back()), (Some(1), Some(3)));
/// assert_eq!(words.len(), 1);
/// ```
#[derive(Clone, Debug)]
pub struct Words<'a>(ChunksExact<'a, u8>);

/// A word of four bytes, low byte first.
#[inline]
fn word(four: &[u8]) -> u32 {
    u32::from_le_bytes([four[0], four[1], four[2], four[3]])
}

impl Iterator for Words<'_> {
    type Item = u32;

    #[inline]
    fn next(&mut self) -> Option<u32> {
        self.0.next().map(word)
    }

    #[inline]
    fn size_hint(&self) -> (usize, Option<usize>) {
        self.0.size_hint()
    }

    #[inline]
    fn nth(&mut self, n: usize) -> Option<u32> {
        self.0.nth(n).map(word)
    }
}

impl DoubleEndedIterator for Words<'_> {
    #[inline]
    fn next_back(&mut self) -> Option<u32> {
        self.0.next_back().map(word)
    }
}

impl ExactSizeIterator for Words<'_> {}
impl FusedIterator for Words<'_> {}
