//! The C entries, and the only `unsafe` lines of the package. An entry answers whatever the numbers are, touches no byte outside of
//! what it is lent, and keeps neither its pointer nor its length: a pointer and a length that come from one slice are all that a call
//! asks. A place crosses as its two numbers, the address of the run's first word and then the position.

use core::{mem, slice};

use crate::{Address, Place};

/// A use of a label that waits, as it stands in a lent sheet: the word at position `at` is to reach the label, at a format.
/// [`Uses`](crate::Uses) makes it; [`raw`](crate::raw) and the C entries take any numbers in it.
///
/// ```
/// use vaimalofo::{Format, Use};
///
/// let waits = Use { label: 3, at: 5, format: Format::Branch26.number() };
/// // A sheet begins with records that mean nothing yet.
/// let sheet = [Use::default(); 16];
/// assert_ne!(sheet[0], waits);
/// ```
#[repr(C)]
#[derive(Clone, Copy, Debug, Default, PartialEq, Eq, Hash)]
pub struct Use {
    /// The label's number.
    pub label: u32,
    /// The word's position in the run.
    pub at: usize,
    /// The format's number.
    pub format: u32,
}

extern "C" {
    fn vaimalofo_move(
        bytes: *mut u8,
        length: usize,
        base_address: u64,
        position: usize,
        value: u64,
        register: u32,
    ) -> u64;
    fn vaimalofo_patchable_move(
        bytes: *mut u8,
        length: usize,
        base_address: u64,
        position: usize,
        value: u64,
        size: u32,
        register: u32,
    ) -> u64;
    fn vaimalofo_count_zero_half_words(value: u64) -> u64;
    fn vaimalofo_logical_fields(value: u64, width: u32) -> u64;
    fn vaimalofo_logical_word(
        bytes: *mut u8,
        length: usize,
        base_address: u64,
        position: usize,
        operation: u32,
        value: u64,
        width: u32,
        rn: u32,
        rd: u32,
    ) -> u64;
    fn vaimalofo_decode_logical(
        bytes: *mut u8,
        length: usize,
        n: u32,
        s: u32,
        r: u32,
        width: u32,
    ) -> u64;
    fn vaimalofo_normalise_logical(n: u32, s: u32, r: u32, width: u32) -> u64;
    fn vaimalofo_displacement(
        bytes: *mut u8,
        length: usize,
        base_address: u64,
        position: usize,
        format: u32,
        base: u32,
        distance: i64,
    ) -> u64;
    fn vaimalofo_displacement_to(
        bytes: *mut u8,
        length: usize,
        base_address: u64,
        position: usize,
        format: u32,
        base: u32,
        target: u64,
    ) -> u64;
    fn vaimalofo_retarget(
        bytes: *mut u8,
        length: usize,
        base_address: u64,
        position: usize,
        format: u32,
        distance: i64,
    ) -> u64;
    fn vaimalofo_retarget_to(
        bytes: *mut u8,
        length: usize,
        base_address: u64,
        position: usize,
        format: u32,
        target: u64,
    ) -> u64;
    fn vaimalofo_has_form(format: u32, word: u32) -> u64;
    fn vaimalofo_read_displacement(word: u32, format: u32) -> u64;
    fn vaimalofo_float_imm8(value: u64, width: u32) -> u64;
    fn vaimalofo_is_float_imm8(value: u64, width: u32) -> u64;
    fn vaimalofo_byte_mask_imm8(value: u64) -> u64;
    fn vaimalofo_check_gp_id(id: u32, high: u32) -> u64;
    fn vaimalofo_check_vec_id(id: u32) -> u64;
    fn vaimalofo_cond_field(cond: u32) -> u64;
    fn vaimalofo_bind_label(
        labels: *mut usize,
        labels_len: usize,
        words: *const u32,
        words_len: usize,
        base_address: u64,
        position: usize,
        label: u32,
    ) -> u64;
    fn vaimalofo_use_label(
        uses: *mut Use,
        uses_len: usize,
        count: usize,
        label: u32,
        format: u32,
        labels: *const usize,
        labels_len: usize,
        words: *const u32,
        words_len: usize,
        base_address: u64,
        position: usize,
    ) -> u64;
    fn vaimalofo_finish_labels(
        uses: *const Use,
        uses_len: usize,
        count: usize,
        labels: *const usize,
        labels_len: usize,
        words: *mut u32,
        words_len: usize,
        base_address: u64,
    ) -> u64;
    fn vaimalofo_read(
        words: *const u32,
        words_len: usize,
        position: usize,
        numbers: *mut u64,
        numbers_len: usize,
    ) -> u64;
    fn vaimalofo_rewrite(word: u32) -> u64;
}

/// What a call that writes begins with: the slice's pointer and length, the base address (the origin) and the position.
#[inline]
fn lent(bytes: &mut [u8], at: Place) -> (*mut u8, usize, u64, usize) {
    (bytes.as_mut_ptr(), bytes.len(), at.base.0, at.position.0)
}

#[inline]
pub fn mov(bytes: &mut [u8], at: Place, value: u64, register: u32) -> u64 {
    let (start, length, origin, position) = lent(bytes, at);
    // SAFETY: pointer and length are the slice's, lent for the call.
    unsafe { vaimalofo_move(start, length, origin, position, value, register) }
}

#[inline]
pub fn patchable_mov(bytes: &mut [u8], at: Place, value: u64, size: u32, register: u32) -> u64 {
    let (start, length, origin, position) = lent(bytes, at);
    // SAFETY: pointer and length are the slice's, lent for the call.
    unsafe { vaimalofo_patchable_move(start, length, origin, position, value, size, register) }
}

#[inline]
pub fn count_zero_half_words(value: u64) -> u64 {
    // SAFETY: numbers alone.
    unsafe { vaimalofo_count_zero_half_words(value) }
}

#[inline]
pub fn logical_fields(value: u64, width: u32) -> u64 {
    // SAFETY: numbers alone.
    unsafe { vaimalofo_logical_fields(value, width) }
}

#[inline]
pub fn logical_word(
    bytes: &mut [u8],
    at: Place,
    operation: u32,
    (value, width): (u64, u32),
    (rn, rd): (u32, u32),
) -> u64 {
    let (start, length, origin, position) = lent(bytes, at);
    // SAFETY: pointer and length are the slice's, lent for the call.
    unsafe {
        vaimalofo_logical_word(start, length, origin, position, operation, value, width, rn, rd)
    }
}

/// The bytes are for the mask.
#[inline]
pub fn decode_logical(bytes: &mut [u8; 8], n: u32, s: u32, r: u32, width: u32) -> u64 {
    // SAFETY: pointer and length are the array's, lent for the call.
    unsafe { vaimalofo_decode_logical(bytes.as_mut_ptr(), bytes.len(), n, s, r, width) }
}

#[inline]
pub fn normalise_logical(n: u32, s: u32, r: u32, width: u32) -> u64 {
    // SAFETY: numbers alone.
    unsafe { vaimalofo_normalise_logical(n, s, r, width) }
}

#[inline]
pub fn displacement(bytes: &mut [u8], at: Place, format: u32, base: u32, distance: i64) -> u64 {
    let (start, length, origin, position) = lent(bytes, at);
    // SAFETY: pointer and length are the slice's, lent for the call.
    unsafe { vaimalofo_displacement(start, length, origin, position, format, base, distance) }
}

#[inline]
pub fn displacement_to(bytes: &mut [u8], at: Place, format: u32, base: u32, target: u64) -> u64 {
    let (start, length, origin, position) = lent(bytes, at);
    // SAFETY: pointer and length are the slice's, lent for the call.
    unsafe { vaimalofo_displacement_to(start, length, origin, position, format, base, target) }
}

#[inline]
pub fn retarget(bytes: &mut [u8], at: Place, format: u32, distance: i64) -> u64 {
    let (start, length, origin, position) = lent(bytes, at);
    // SAFETY: pointer and length are the slice's, lent for the call.
    unsafe { vaimalofo_retarget(start, length, origin, position, format, distance) }
}

#[inline]
pub fn retarget_to(bytes: &mut [u8], at: Place, format: u32, target: u64) -> u64 {
    let (start, length, origin, position) = lent(bytes, at);
    // SAFETY: pointer and length are the slice's, lent for the call.
    unsafe { vaimalofo_retarget_to(start, length, origin, position, format, target) }
}

#[inline]
pub fn has_form(format: u32, word: u32) -> u64 {
    // SAFETY: numbers alone.
    unsafe { vaimalofo_has_form(format, word) }
}

#[inline]
pub fn read_displacement(word: u32, format: u32) -> u64 {
    // SAFETY: numbers alone.
    unsafe { vaimalofo_read_displacement(word, format) }
}

#[inline]
pub fn float_imm8(value: u64, width: u32) -> u64 {
    // SAFETY: numbers alone.
    unsafe { vaimalofo_float_imm8(value, width) }
}

#[inline]
pub fn is_float_imm8(value: u64, width: u32) -> u64 {
    // SAFETY: numbers alone.
    unsafe { vaimalofo_is_float_imm8(value, width) }
}

#[inline]
pub fn byte_mask_imm8(value: u64) -> u64 {
    // SAFETY: numbers alone.
    unsafe { vaimalofo_byte_mask_imm8(value) }
}

#[inline]
pub fn check_gp_id(id: u32, high: u32) -> u64 {
    // SAFETY: numbers alone.
    unsafe { vaimalofo_check_gp_id(id, high) }
}

#[inline]
pub fn check_vec_id(id: u32) -> u64 {
    // SAFETY: numbers alone.
    unsafe { vaimalofo_check_vec_id(id) }
}

#[inline]
pub fn cond_field(cond: u32) -> u64 {
    // SAFETY: numbers alone.
    unsafe { vaimalofo_cond_field(cond) }
}

#[inline]
pub fn bind_label(labels: &mut [usize], words: &[u32], at: Place, label: u32) -> u64 {
    // SAFETY: each pointer has its slice's length beside it, lent for the call.
    unsafe {
        vaimalofo_bind_label(
            labels.as_mut_ptr(),
            labels.len(),
            words.as_ptr(),
            words.len(),
            at.base.0,
            at.position.0,
            label,
        )
    }
}

#[inline]
pub fn use_label(
    (uses, count): (&mut [Use], usize),
    labels: &[usize],
    words: &[u32],
    at: Place,
    (label, format): (u32, u32),
) -> u64 {
    // SAFETY: each pointer has its slice's length beside it, lent for the call.
    unsafe {
        vaimalofo_use_label(
            uses.as_mut_ptr(),
            uses.len(),
            count,
            label,
            format,
            labels.as_ptr(),
            labels.len(),
            words.as_ptr(),
            words.len(),
            at.base.0,
            at.position.0,
        )
    }
}

#[inline]
pub fn finish_labels(
    (uses, count): (&[Use], usize),
    labels: &[usize],
    words: &mut [u32],
    base: Address,
) -> u64 {
    // SAFETY: each pointer has its slice's length beside it, lent for the call.
    unsafe {
        vaimalofo_finish_labels(
            uses.as_ptr(),
            uses.len(),
            count,
            labels.as_ptr(),
            labels.len(),
            words.as_mut_ptr(),
            words.len(),
            base.0,
        )
    }
}

#[inline]
pub fn read(words: &[u32], position: usize, numbers: &mut [u64]) -> u64 {
    // SAFETY: each pointer has its slice's length beside it, lent for the call.
    unsafe {
        vaimalofo_read(words.as_ptr(), words.len(), position, numbers.as_mut_ptr(), numbers.len())
    }
}

#[inline]
pub fn rewrite(word: u32) -> u64 {
    // SAFETY: numbers alone.
    unsafe { vaimalofo_rewrite(word) }
}

/// The bytes of words. Every target of the library has the low byte of a word first.
#[inline]
pub fn bytes(words: &mut [u32]) -> &mut [u8] {
    let length = mem::size_of_val(words);
    // SAFETY: it is the slice's own memory, lent as long; any four bytes are a word, and a byte may stand anywhere.
    unsafe { slice::from_raw_parts_mut(words.as_mut_ptr().cast(), length) }
}
