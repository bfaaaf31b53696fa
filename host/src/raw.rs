//! The entries on bare numbers, with the refusals' numbers for an answer: for differential use, where wild numbers are to be asked as
//! they are, and for hosts that have numbers in hand.
//!
//! Each function is one C entry. Where several refusals apply, it gives the first in the order that stands beside it. With a refusal
//! every lent byte is as it was.

use crate::{ffi, Address, Fields, Format, Place, Reached, Refusal, Use};

/// The value of the one number that an entry answers: the bits above its low byte, read as signed.
#[inline]
fn value(number: u64) -> i64 {
    number as i64 >> 8
}

/// What the one number of an entry says: a refusal's number in its low byte, or 0 and the value.
#[inline]
fn answer(number: u64) -> Result<i64, Refusal> {
    match number as u8 {
        0 => Ok(value(number)),
        refusal => {
            Err(Refusal::from_number(refusal).expect("the entries give the refusals' numbers"))
        }
    }
}

/// The place after as many words as an entry says that it has written.
#[inline]
fn after(at: Place, number: u64) -> Result<Place, Refusal> {
    Ok(at.past(answer(number)? as usize))
}

/// The place and the low bits of a target entry: the words written in the value's low byte, and the low bits above it.
#[inline]
fn reached(at: Place, format: u32, number: u64) -> Result<Reached, Refusal> {
    let value = answer(number)?;
    let (written, low12) = ((value & 0xFF) as usize, (value >> 8) as u32);
    let paged = format == Format::Adrp21.number();
    Ok(Reached { place: at.past(written), low12: paged.then_some(low12) })
}

/// The fields in an entry's number: a byte each, R the lowest.
#[inline]
fn fields(number: u64) -> Result<Fields, Refusal> {
    let fields = answer(number)?;
    let byte = |at: u32| u32::from((fields >> at) as u8);
    Ok(Fields { n: byte(16), s: byte(8), r: byte(0), length: byte(24) })
}

/// [`mov`](crate::mov) to the register of a number.
///
/// # Errors
/// [`Refusal::Unaligned`], [`Refusal::Register`] above 30, [`Refusal::NoRoom`].
///
/// ```
/// use vaimalofo::{raw, Address, Place, Refusal};
///
/// let start = Place::at(Address(0));
/// assert_eq!(raw::mov(&mut [0; 8], start, 0x12345678, 0).unwrap().address(), Address(8));
/// assert_eq!(raw::mov(&mut [0; 8], start, 0x12345678, 63), Err(Refusal::Register));
/// ```
#[inline]
pub fn mov(bytes: &mut [u8], at: Place, value: u64, register: u32) -> Result<Place, Refusal> {
    after(at, ffi::mov(bytes, at, value, register))
}

/// [`patchable_mov`](crate::patchable_mov) at a register size in bits.
///
/// # Errors
/// [`Refusal::Unaligned`], [`Refusal::Width`] for a size that is not 32 or 64, [`Refusal::Register`] above 30, [`Refusal::NoRoom`].
///
/// ```
/// use vaimalofo::{raw, Address, Place, Refusal};
///
/// let start = Place::at(Address(0));
/// assert_eq!(raw::patchable_mov(&mut [0; 8], start, 7, 32, 2).unwrap().address(), Address(8));
/// assert_eq!(raw::patchable_mov(&mut [0; 8], start, 7, 16, 31), Err(Refusal::Width));
/// ```
#[inline]
pub fn patchable_mov(
    bytes: &mut [u8],
    at: Place,
    value: u64,
    size: u32,
    register: u32,
) -> Result<Place, Refusal> {
    after(at, ffi::patchable_mov(bytes, at, value, size, register))
}

/// [`count_zero_half_words_64`](crate::count_zero_half_words_64).
///
/// ```
/// assert_eq!(vaimalofo::raw::count_zero_half_words(0xFFFF_0000), 3);
/// ```
#[inline]
pub fn count_zero_half_words(value: u64) -> u32 {
    self::value(ffi::count_zero_half_words(value)) as u32
}

/// [`logical_fields`](crate::logical_fields) at a width in bits.
///
/// # Errors
/// [`Refusal::Width`] for a width that is not 32 or 64, [`Refusal::NoField`].
///
/// ```
/// use vaimalofo::{raw, Fields, Refusal};
///
/// assert_eq!(raw::logical_fields(0xFF, 64), Ok(Fields { n: 1, s: 7, r: 0, length: 64 }));
/// assert_eq!(raw::logical_fields(0xF0, 16), Err(Refusal::Width));
/// ```
#[inline]
pub fn logical_fields(value: u64, width: u32) -> Result<Fields, Refusal> {
    fields(ffi::logical_fields(value, width))
}

/// [`logical_word`](crate::logical_word) of an operation's number: 0 AND, 1 ORR, 2 EOR, 3 ANDS.
///
/// # Errors
/// [`Refusal::Unaligned`], [`Refusal::Unknown`] for an operation above 3, [`Refusal::Width`], [`Refusal::Register`] above 31,
/// [`Refusal::NoField`], [`Refusal::NoRoom`].
///
/// ```
/// use vaimalofo::{raw, Address, Place, Refusal};
///
/// let start = Place::at(Address(0));
/// let mut code = [0; 4];
/// assert_eq!(raw::logical_word(&mut code, start, 0, 0xFF, 64, 1, 0).unwrap().address(), Address(4));
/// assert_eq!(code, 0x92401C20_u32.to_le_bytes());
/// assert_eq!(raw::logical_word(&mut code, start, 4, 0xFF, 64, 1, 0), Err(Refusal::Unknown));
/// ```
#[inline]
pub fn logical_word(
    bytes: &mut [u8],
    at: Place,
    operation: u32,
    value: u64,
    width: u32,
    rn: u32,
    rd: u32,
) -> Result<Place, Refusal> {
    after(at, ffi::logical_word(bytes, at, operation, (value, width), (rn, rd)))
}

/// [`decode_logical`](crate::decode_logical) at a width in bits.
///
/// # Errors
/// [`Refusal::Width`], [`Refusal::NoField`] where the fields are not legal.
///
/// ```
/// use vaimalofo::{raw, Refusal};
///
/// assert_eq!(raw::decode_logical(0, 60, 5, 32), Ok(0xAAAAAAAA));
/// assert_eq!(raw::decode_logical(2, 60, 5, 32), Err(Refusal::NoField));
/// assert_eq!(raw::decode_logical(2, 60, 5, 31), Err(Refusal::Width));
/// ```
#[inline]
pub fn decode_logical(n: u32, s: u32, r: u32, width: u32) -> Result<u64, Refusal> {
    let mut mask = [0; 8];
    answer(ffi::decode_logical(&mut mask, n, s, r, width))?;
    Ok(u64::from_le_bytes(mask))
}

/// [`normalise_logical`](crate::normalise_logical) at a width in bits.
///
/// # Errors
/// [`Refusal::Width`], [`Refusal::NoField`] where the fields are not legal.
///
/// ```
/// use vaimalofo::{raw, Fields, Refusal};
///
/// assert_eq!(raw::normalise_logical(0, 60, 5, 64), Ok(Fields { n: 0, s: 60, r: 1, length: 2 }));
/// assert_eq!(raw::normalise_logical(1, 7, 0, 32), Err(Refusal::NoField));
/// ```
#[inline]
pub fn normalise_logical(n: u32, s: u32, r: u32, width: u32) -> Result<Fields, Refusal> {
    fields(ffi::normalise_logical(n, s, r, width))
}

/// [`displacement`](crate::displacement) at the format of a number, by a distance in bytes.
///
/// # Errors
/// [`Refusal::Unaligned`], [`Refusal::Unknown`] for a format above 5, [`Refusal::WrongForm`], [`Refusal::Taken`], [`Refusal::Step`],
/// [`Refusal::Range`], [`Refusal::NoRoom`].
///
/// ```
/// use vaimalofo::{raw, Address, Place, Refusal};
///
/// let (start, mut code) = (Place::at(Address(0)), [0; 4]);
/// assert_eq!(raw::displacement(&mut code, start, 5, 0x58000000, 8).unwrap().address(), Address(4));
/// assert_eq!(code, 0x58000040_u32.to_le_bytes());
/// assert_eq!(raw::displacement(&mut code, start, 6, 0x58000000, 8), Err(Refusal::Unknown));
/// ```
#[inline]
pub fn displacement(
    bytes: &mut [u8],
    at: Place,
    format: u32,
    base: u32,
    distance: i64,
) -> Result<Place, Refusal> {
    after(at, ffi::displacement(bytes, at, format, base, distance))
}

/// [`displacement_to`](crate::displacement_to) at the format of a number, to an address.
///
/// # Errors
/// Those of [`displacement`], in the same order; at format 4 never [`Refusal::Step`].
///
/// ```
/// use vaimalofo::{raw, Address, Place, Refusal};
///
/// let (start, mut code) = (Place::at(Address(0x1234)), [0; 4]);
/// let adrp = raw::displacement_to(&mut code, start, 4, 0x90000000, 0x3456);
/// assert_eq!(adrp.unwrap().low12, Some(0x456));
/// assert_eq!(raw::displacement_to(&mut code, start, 0, 0x14000001, 2), Err(Refusal::Taken));
/// ```
#[inline]
pub fn displacement_to(
    bytes: &mut [u8],
    at: Place,
    format: u32,
    base: u32,
    target: u64,
) -> Result<Reached, Refusal> {
    reached(at, format, ffi::displacement_to(bytes, at, format, base, target))
}

/// [`retarget`](crate::retarget) at the format of a number, by a distance in bytes.
///
/// # Errors
/// [`Refusal::Unaligned`], [`Refusal::Unknown`] for a format above 5, [`Refusal::NoRoom`] where no whole word stands at the place,
/// [`Refusal::WrongForm`], [`Refusal::Step`], [`Refusal::Range`].
///
/// ```
/// use vaimalofo::{raw, Address, Place, Refusal};
///
/// let (start, mut code) = (Place::at(Address(0)), 0x17FFFFFF_u32.to_le_bytes());
/// assert_eq!(raw::retarget(&mut code, start, 0, 8).unwrap().address(), Address(4));
/// assert_eq!(code, 0x14000002_u32.to_le_bytes());
/// assert_eq!(raw::retarget(&mut code, start, 1, 8), Err(Refusal::WrongForm));
/// ```
#[inline]
pub fn retarget(bytes: &mut [u8], at: Place, format: u32, distance: i64) -> Result<Place, Refusal> {
    after(at, ffi::retarget(bytes, at, format, distance))
}

/// [`retarget_to`](crate::retarget_to) at the format of a number, to an address.
///
/// # Errors
/// Those of [`retarget`], in the same order; at format 4 never [`Refusal::Step`].
///
/// ```
/// use vaimalofo::{raw, Address, Place, Refusal};
///
/// let (start, mut code) = (Place::at(Address(0x1000)), 0x14000001_u32.to_le_bytes());
/// assert_eq!(raw::retarget_to(&mut code, start, 0, 0x1008).unwrap().low12, None);
/// assert_eq!(code, 0x14000002_u32.to_le_bytes());
/// assert_eq!(raw::retarget_to(&mut code, start, 0, 0x1009), Err(Refusal::Step));
/// ```
#[inline]
pub fn retarget_to(
    bytes: &mut [u8],
    at: Place,
    format: u32,
    target: u64,
) -> Result<Reached, Refusal> {
    reached(at, format, ffi::retarget_to(bytes, at, format, target))
}

/// [`has_form`](crate::has_form) at the format of a number.
///
/// # Errors
/// [`Refusal::Unknown`] for a format above 5.
///
/// ```
/// use vaimalofo::{raw, Refusal};
///
/// assert_eq!(raw::has_form(1, 0x54000000), Ok(true));
/// assert_eq!(raw::has_form(6, 0x54000000), Err(Refusal::Unknown));
/// ```
#[inline]
pub fn has_form(format: u32, word: u32) -> Result<bool, Refusal> {
    Ok(answer(ffi::has_form(format, word))? == 1)
}

/// [`read_displacement`](crate::read_displacement) at the format of a number: the distance in bytes.
///
/// # Errors
/// [`Refusal::Unknown`] for a format above 5.
///
/// ```
/// use vaimalofo::{raw, Refusal};
///
/// assert_eq!(raw::read_displacement(0x17FFFFFF, 0), Ok(-4));
/// assert_eq!(raw::read_displacement(0x17FFFFFF, 6), Err(Refusal::Unknown));
/// ```
#[inline]
pub fn read_displacement(word: u32, format: u32) -> Result<i64, Refusal> {
    answer(ffi::read_displacement(word, format))
}

/// The 8-bit float of the bits of a float at width 16, 32 or 64; bits above the width are ignored.
///
/// # Errors
/// [`Refusal::Width`] for another width, [`Refusal::NoField`] where no 8-bit float expands to it.
///
/// ```
/// use vaimalofo::{raw, Refusal};
///
/// assert_eq!(raw::float_imm8(0x3C00, 16), Ok(112));
/// assert_eq!(raw::float_imm8(0, 16), Err(Refusal::NoField));
/// assert_eq!(raw::float_imm8(0, 8), Err(Refusal::Width));
/// ```
#[inline]
pub fn float_imm8(value: u64, width: u32) -> Result<u8, Refusal> {
    Ok(answer(ffi::float_imm8(value, width))? as u8)
}

/// Whether an 8-bit float expands to the bits of a float at width 16, 32 or 64; bits above the width are ignored.
///
/// # Errors
/// [`Refusal::Width`] for another width.
///
/// ```
/// use vaimalofo::{raw, Refusal};
///
/// assert_eq!(raw::is_float_imm8(0x3F800000, 32), Ok(true));
/// assert_eq!(raw::is_float_imm8(0x3F800000, 0), Err(Refusal::Width));
/// ```
#[inline]
pub fn is_float_imm8(value: u64, width: u32) -> Result<bool, Refusal> {
    Ok(answer(ffi::is_float_imm8(value, width))? == 1)
}

/// [`encode_byte_mask_to_imm8`](crate::encode_byte_mask_to_imm8).
///
/// # Errors
/// [`Refusal::NoField`] where a byte is neither 00 nor FF.
///
/// ```
/// use vaimalofo::{raw, Refusal};
///
/// assert_eq!(raw::byte_mask_imm8(0xFF000000000000FF), Ok(129));
/// assert_eq!(raw::byte_mask_imm8(1), Err(Refusal::NoField));
/// ```
#[inline]
pub fn byte_mask_imm8(value: u64) -> Result<u8, Refusal> {
    Ok(answer(ffi::byte_mask_imm8(value))? as u8)
}

/// [`check_gp_id`](crate::check_gp_id).
///
/// ```
/// assert!(vaimalofo::raw::check_gp_id(63, 63));
/// ```
#[inline]
pub fn check_gp_id(id: u32, high: u32) -> bool {
    value(ffi::check_gp_id(id, high)) == 1
}

/// [`check_vec_id`](crate::check_vec_id).
///
/// ```
/// assert!(!vaimalofo::raw::check_vec_id(32));
/// ```
#[inline]
pub fn check_vec_id(id: u32) -> bool {
    value(ffi::check_vec_id(id)) == 1
}

/// [`cond_code_to_opcode_field`](crate::cond_code_to_opcode_field).
///
/// ```
/// assert_eq!(vaimalofo::raw::cond_field(0), 14);
/// ```
#[inline]
pub fn cond_field(cond: u32) -> u32 {
    value(ffi::cond_field(cond)) as u32
}

/// [`Labels::bind`](crate::Labels::bind) in a table: the entry of a label is 0 where it is unbound, else one more than its position.
///
/// # Errors
/// [`Refusal::Unaligned`], [`Refusal::Label`] for a label at or past 256 or the table's length, [`Refusal::Twice`],
/// [`Refusal::NoRoom`] for a position past the end; the end itself may have a label.
///
/// ```
/// use vaimalofo::{raw, Address, Place, Refusal};
///
/// let (mut labels, start) = ([0; 4], Place::at(Address(0)));
/// assert_eq!(raw::bind_label(&mut labels, &[0; 8], start, 2), Ok(()));
/// assert_eq!(labels, [0, 0, 1, 0]);
/// assert_eq!(raw::bind_label(&mut labels, &[0; 8], start, 2), Err(Refusal::Twice));
/// assert_eq!(raw::bind_label(&mut labels, &[0; 8], start, 4), Err(Refusal::Label));
/// ```
#[inline]
pub fn bind_label(
    labels: &mut [usize],
    words: &[u32],
    at: Place,
    label: u32,
) -> Result<(), Refusal> {
    answer(ffi::bind_label(labels, words, at, label)).map(|_| ())
}

/// [`Uses::add`](crate::Uses::add) to the first `count` records of a sheet, which wait: how many wait after it.
///
/// # Errors
/// [`Refusal::Unaligned`], [`Refusal::Unknown`] for a format above 5, [`Refusal::Label`], [`Refusal::NoRoom`] where no word stands at
/// the place, [`Refusal::WrongForm`], [`Refusal::Taken`], [`Refusal::Again`], [`Refusal::Full`] for a count at or above 1,024 or the
/// sheet's length.
///
/// ```
/// use vaimalofo::{raw, Address, Place, Refusal, Use};
///
/// let (mut sheet, labels, start) = ([Use::default(); 1], [0; 4], Place::at(Address(0)));
/// let mut add = |count, format| {
///     raw::use_label(&mut sheet, count, &labels, &[0x14000000], start, 3, format)
/// };
/// assert_eq!(add(0, 6), Err(Refusal::Unknown));
/// assert_eq!(add(0, 0), Ok(1));
/// assert_eq!(add(1, 0), Err(Refusal::Again));
/// assert_eq!(sheet, [Use { label: 3, at: 0, format: 0 }]);
/// ```
#[inline]
pub fn use_label(
    uses: &mut [Use],
    count: usize,
    labels: &[usize],
    words: &[u32],
    at: Place,
    label: u32,
    format: u32,
) -> Result<usize, Refusal> {
    Ok(answer(ffi::use_label((uses, count), labels, words, at, (label, format)))? as usize)
}

/// [`Uses::finish`](crate::Uses::finish) of the first `count` records of a sheet: how many wait after it, which is 0. The records stay.
///
/// # Errors
/// [`Refusal::Unaligned`], [`Refusal::Full`] for a count above 1,024 or the sheet's length; then of the first use that has one, in the
/// sheet's order, [`Refusal::Unknown`], [`Refusal::Label`], also for a label that is not bound, [`Refusal::NoRoom`] for a word or a
/// label outside of the run, [`Refusal::WrongForm`], [`Refusal::Taken`], [`Refusal::Again`], [`Refusal::Step`], [`Refusal::Range`].
///
/// ```
/// use vaimalofo::{raw, Address, Refusal, Use};
///
/// let (sheet, mut code) = ([Use { label: 3, at: 0, format: 0 }], [0x14000000, 0]);
/// let mut finish = |count, label| {
///     raw::finish_labels(&sheet, count, &[0, 0, 0, label], &mut code, Address(0))
/// };
/// assert_eq!(finish(2, 0), Err(Refusal::Full));
/// assert_eq!(finish(1, 0), Err(Refusal::Label));
/// assert_eq!(finish(1, 1 + 2), Ok(0));
/// assert_eq!(code, [0x14000002, 0]);
/// ```
#[inline]
pub fn finish_labels(
    uses: &[Use],
    count: usize,
    labels: &[usize],
    words: &mut [u32],
    base: Address,
) -> Result<usize, Refusal> {
    Ok(answer(ffi::finish_labels((uses, count), labels, words, base))? as usize)
}

/// [`read_at`](crate::read_at): the kind of what stands at a position, and its numbers, written from the first of those that are lent;
/// the others stay.
///
/// | kind | what it is | its numbers |
/// |---|---|---|
/// | 0 | the end of the run | none |
/// | 1 | a constant | next, register, size, value, words |
/// | 2 | a lone MOVK | next, register, size, halfword, place |
/// | 3 | a logical immediate | next, operation, width, rn, rd, value, N, S, R, element length, normal (1 or 0) |
/// | 4 | a displacement | next, format, base, distance (its 64 bits) |
/// | 5 | an unknown word | next, word, position |
///
/// `next` is the position after the item.
///
/// # Errors
/// [`Refusal::NoRoom`] for a position past the end, the end itself being kind 0, and for fewer than eleven numbers.
///
/// ```
/// use vaimalofo::{raw, Refusal};
///
/// let (code, mut numbers) = ([0xD28ACF00, 0xF2A24680, 0x17FFFFFF], [9; 11]);
/// assert_eq!(raw::read(&code, 0, &mut numbers), Ok(1));
/// assert_eq!(numbers[..6], [2, 0, 64, 0x12345678, 2, 9]);
/// assert_eq!(raw::read(&code, 2, &mut numbers), Ok(4));
/// assert_eq!(numbers[..4], [3, 0, 0x14000000, -4_i64 as u64]);
/// assert_eq!(raw::read(&code, 3, &mut numbers), Ok(0));
/// assert_eq!(raw::read(&code, 4, &mut numbers), Err(Refusal::NoRoom));
/// assert_eq!(raw::read(&code, 0, &mut numbers[..10]), Err(Refusal::NoRoom));
/// ```
#[inline]
pub fn read(words: &[u32], position: usize, numbers: &mut [u64]) -> Result<u64, Refusal> {
    Ok(answer(ffi::read(words, position, numbers))? as u64)
}

/// [`rewrite`](crate::rewrite).
///
/// ```
/// assert_eq!(vaimalofo::raw::rewrite(0x17FFFFFF), 0x17FFFFFF);
/// ```
#[inline]
pub fn rewrite(word: u32) -> u32 {
    value(ffi::rewrite(word)) as u32
}
