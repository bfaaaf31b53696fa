//! Moves of values to registers.

use crate::error::{refused_at, Operands};
use crate::{raw, Error, Place, Reg, Width};

/// Writes the 1 to 4 words that move a value to a register (MOVZ, MOVN and MOVK), the same ones as asmkit's `encode_mov_sequence64`
/// where those are right.
///
/// # Errors
/// [`Error::Unaligned`], [`Error::Register`] for register 31, then [`Error::NoRoom`].
///
/// ```
/// use vaimalofo::{mov, words, Address, Error, Place, Reg, WordPos};
///
/// let mut code = [0; 8];
/// let start = Place::at(Address(0));
/// let next = mov(&mut code, start, 0xFFFFFFFE, Reg::X1)?;
/// assert_eq!(next, Place { base: Address(0), position: WordPos(1) });
/// assert!(words(&code).eq([0x12800021, 0]));
/// assert_eq!(
///     mov(&mut code, next, 0x12345678, Reg::X0),
///     Err(Error::NoRoom { position: WordPos(1), words: 2 })
/// );
/// let error = mov(&mut code, start, 0, Reg::R31).unwrap_err();
/// assert_eq!(error.to_string(), "register 31 is none of a move, which takes 0 to 30");
/// let error = mov(&mut code, Place::at(Address(2)), 0, Reg::R31).unwrap_err();
/// assert_eq!(error.to_string(), "base address 0x2 is not a multiple of 4");
/// # Ok::<(), Error>(())
/// ```
#[inline]
pub fn mov(bytes: &mut [u8], at: Place, value: u64, register: Reg) -> Result<Place, Error> {
    raw::mov(bytes, at, value, register.number())
        .map_err(|refusal| refused_at(refusal, bytes, at, Operands::Move(register)))
}

/// Writes a move whose value can be patched later: always four words at a register size of 64, two at 32, where only the low 32 bits
/// of the value count. To patch it, write it again at the same place with another value.
///
/// # Errors
/// [`Error::Unaligned`], [`Error::Register`] for register 31, then [`Error::NoRoom`].
///
/// ```
/// use vaimalofo::{patchable_mov, words, Address, Error, Place, Reg, Width, WordPos};
///
/// let mut code = [0; 8];
/// let start = Place::at(Address(0));
/// let end = Place { base: Address(0), position: WordPos(2) };
/// assert_eq!(patchable_mov(&mut code, start, 7, Width::W32, Reg::X2), Ok(end));
/// assert!(words(&code).eq([0x528000E2, 0x72A00002]));
/// // Another value in its place.
/// assert_eq!(patchable_mov(&mut code, start, 0x10008, Width::W32, Reg::X2), Ok(end));
/// assert!(words(&code).eq([0x52800102, 0x72A00022]));
/// let error = patchable_mov(&mut code, start, 7, Width::W64, Reg::X2).unwrap_err();
/// assert_eq!(error, Error::NoRoom { position: WordPos(0), words: 2 });
/// ```
#[inline]
pub fn patchable_mov(
    bytes: &mut [u8],
    at: Place,
    value: u64,
    size: Width,
    register: Reg,
) -> Result<Place, Error> {
    raw::patchable_mov(bytes, at, value, size.bits(), register.number())
        .map_err(|refusal| refused_at(refusal, bytes, at, Operands::Move(register)))
}

/// How many of the four 16-bit halfwords of a value are 0.
///
/// ```
/// use vaimalofo::count_zero_half_words_64;
///
/// assert_eq!(count_zero_half_words_64(0x12345678), 2);
/// assert_eq!([0, u64::MAX].map(count_zero_half_words_64), [4, 0]);
/// ```
#[inline]
pub fn count_zero_half_words_64(value: u64) -> u32 {
    raw::count_zero_half_words(value)
}
