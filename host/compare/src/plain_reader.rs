//! A run of words read back by a plain Rust program, into the numbers that the C entry is lent: the other side of `reader_speed`, and what
//! the wrong programs are made of that the comparison must find out.

use vaimalofo::Refusal;

/// The kinds of items, and as many numbers as the longest has.
pub const END: u64 = 0;
pub const CONSTANT: u64 = 1;
pub const LONE_MOVK: u64 = 2;
pub const LOGICAL: u64 = 3;
pub const DISPLACEMENT: u64 = 4;
pub const UNKNOWN: u64 = 5;
pub const NUMBERS: usize = 11;

/// The kind of what stands at a position, and its numbers, of which the first is the position behind it.
#[inline]
pub fn read(words: &[u32], position: usize, numbers: &mut [u64]) -> Result<u64, Refusal> {
    let rest = words.get(position..).ok_or(Refusal::NoRoom)?;
    let numbers = numbers.first_chunk_mut::<NUMBERS>().ok_or(Refusal::NoRoom)?;
    let Some((&word, behind)) = rest.split_first() else {
        return Ok(END);
    };
    let next = position as u64 + 1;
    let known = match word >> 23 & 0x3F {
        0b100100 => logical(word, next, numbers),
        0b100101 => wide(word, behind, next, numbers),
        _ => format(word).map(|format| displaced(format, word, next, numbers)),
    };
    Ok(known.unwrap_or_else(|| {
        put(numbers, [next, word.into(), position as u64]);
        UNKNOWN
    }))
}

#[inline]
fn put<const N: usize>(numbers: &mut [u64; NUMBERS], given: [u64; N]) {
    numbers[..N].copy_from_slice(&given);
}

/// Where a wide move has its 16 bits.
#[inline]
fn shift(word: u32) -> u32 {
    word >> 17 & 0x30
}

#[inline]
fn halfword(word: u32) -> u64 {
    (word >> 5 & 0xFFFF).into()
}

/// A MOVK, or a MOVZ or MOVN with the MOVKs behind it.
#[inline]
fn wide(word: u32, behind: &[u32], next: u64, numbers: &mut [u64; NUMBERS]) -> Option<u64> {
    let (size, register) = (32 << (word >> 31), word & 31);
    if shift(word) >= size || register == 31 {
        return None;
    }
    let half = halfword(word) << shift(word);
    let mut value = match word >> 29 & 3 {
        0b00 => !half,
        0b10 => half,
        0b11 => {
            let place = shift(word) / 16;
            put(numbers, [next, register.into(), size.into(), halfword(word), place.into()]);
            return Some(LONE_MOVK);
        }
        _ => return None,
    };
    // Group, size and register of a MOVK that belongs here, and at 32 the high bit of its place.
    let (mask, movk) = match size {
        64 => (0xFF80_001F, 0xF280_0000 | register),
        _ => (0xFFC0_001F, 0x7280_0000 | register),
    };
    let mut count = 1;
    for more in behind.iter().take_while(|more| **more & mask == movk) {
        value = value & !(0xFFFF << shift(*more)) | halfword(*more) << shift(*more);
        count += 1;
    }
    if size == 32 {
        value &= 0xFFFF_FFFF;
    }
    put(numbers, [next + count - 1, register.into(), size.into(), value, count]);
    Some(CONSTANT)
}

/// A one at the start of each element, by the logarithm of the element's length.
const COPIES: [u64; 7] = [
    u64::MAX,
    u64::MAX / 3,
    u64::MAX / 15,
    u64::MAX / 255,
    u64::MAX / 0xFFFF,
    u64::MAX / 0xFFFF_FFFF,
    1,
];

#[inline]
fn logical(word: u32, next: u64, numbers: &mut [u64; NUMBERS]) -> Option<u64> {
    let (width, n) = (32 << (word >> 31), word >> 22 & 1);
    let (s, r) = (word >> 10 & 63, word >> 16 & 63);
    let log = (n << 6 | !s & 63).checked_ilog2().filter(|log| *log > 0)?;
    let length = 1u32 << log;
    let (ones, turn) = ((s & (length - 1)) + 1, r & (length - 1));
    if ones == length || length > width {
        return None;
    }
    let run = (1u64 << ones) - 1;
    let element = match turn {
        0 => run,
        _ => (run >> turn | run << (length - turn)) & u64::MAX >> (64 - length),
    };
    let value = element.wrapping_mul(COPIES[log as usize]) & u64::MAX >> (64 - width);
    let (rn, rd) = (word >> 5 & 31, word & 31);
    let [operation, width, rn, rd, n, s] = [word >> 29 & 3, width, rn, rd, n, s].map(u64::from);
    let normal = (r < length).into();
    put(numbers, [next, operation, width, rn, rd, value, n, s, r.into(), length.into(), normal]);
    Some(LOGICAL)
}

/// The format of a displacement.
#[inline]
fn format(word: u32) -> Option<u32> {
    match () {
        () if word & 0x7C00_0000 == 0x1400_0000 => Some(0),
        () if word & 0xFF00_0010 == 0x5400_0000 => Some(1),
        () if word & 0x7E00_0000 == 0x3400_0000 => Some(1),
        () if word & 0x7E00_0000 == 0x3600_0000 => Some(2),
        () if word & 0x1F00_0000 == 0x1000_0000 => Some(3 + (word >> 31)),
        () if word & 0x3B00_0000 == 0x1800_0000 && word & 0xC400_0000 != 0xC400_0000 => Some(5),
        () => None,
    }
}

/// The bits of a word from one on, read as signed and in bytes.
#[inline]
fn signed(word: u32, low: u32, bits: u32) -> i64 {
    i64::from((word << (32 - bits - low)) as i32 >> (32 - bits)) * 4
}

#[inline]
fn displaced(format: u32, word: u32, next: u64, numbers: &mut [u64; NUMBERS]) -> u64 {
    let (field, distance) = match format {
        0 => (0x03FF_FFFF, signed(word, 0, 26)),
        2 => (0x0007_FFE0, signed(word, 5, 14)),
        3 | 4 => {
            let bytes = signed(word, 5, 19) | i64::from(word >> 29 & 3);
            (0x60FF_FFE0, if format == 3 { bytes } else { bytes << 12 })
        }
        _ => (0x00FF_FFE0, signed(word, 5, 19)),
    };
    put(numbers, [next, format.into(), (word & !field).into(), distance as u64]);
    DISPLACEMENT
}

/// A word written again: a logical one has its R reduced by the element's length, and all others are as they were.
pub fn rewrite(word: u32) -> u32 {
    let mut numbers = [0; NUMBERS];
    match read(&[word], 0, &mut numbers) {
        Ok(LOGICAL) => word & !(63 << 16) | ((numbers[8] % numbers[9]) as u32) << 16,
        _ => word,
    }
}
