//! What the Rust does at a request, as the classes say: document 01's answer with their departures,
//! computed from the request. Nothing here runs the Rust; of it only the list of its maps is read.

use super::answer::Answer;
use super::by_document;
use super::by_rust::Heard::{self, Lacks, Overflows, Panics, Says, Spoils};
use super::request::{Request, entry::*};
use crate::document::displacements::{self, FORMATS};
use crate::document::logical::{self, Fields};
use crate::document::words::{self, Place};
use crate::document::{No, moves, simd};
use crate::rust;

/// Whether the original is built so that an overflow panics; else it wraps around.
const CHECKED: bool = cfg!(debug_assertions);

pub fn expected(r: &Request) -> Heard {
    match r.entry {
        LSB_MASK => mask(r.low(0)),
        SHIFT_MAP if r.low(0) > 15 => Panics,
        ENCODE_LOGICAL => fields(r),
        LOGICAL_WORD => logical_word(r),
        MOVE => written(r, 2, move_words(r.args[0], r.low(1))),
        PATCHABLE_MOVE => patchable_move(r),
        DISP_IMM => displaced(r, r.args[2] as i64),
        DISP_TARGET => displaced_to(r),
        ENCODE_FLOAT => float(r.args[0], r.low(1)),
        ENCODE_BYTE_MASK => byte_mask(r.args[0]),
        LMH => lmh(r.low(0), r.low(1)),
        SIZE_OP => size_op(r),
        PICK_FP => picked(r),
        BIT_TEST
        | CHECK_GP_ID
        | CHECK_GP_ID2
        | CHECK_GP_ID3
        | CHECK_VEC_ID
        | CHECK_VEC_ID2
        | CHECK_VEC_ID3
        | CONDITION_FIELD
        | SHIFT_MAP
        | COUNT_ZERO_HALF_WORDS
        | IS_FP16
        | IS_FP32
        | IS_FP64
        | IS_BYTE_MASK => Says(by_document::answer(r)),
        _ => Lacks,
    }
}

/// Words in the run of argument i, whatever its base address. Without room the Rust cannot be
/// asked.
fn written(r: &Request, i: usize, given: Vec<u32>) -> Heard {
    let mut run = r.run(i);
    match words::put(&mut run, Place { base: 0, ..r.place() }, Ok(given)) {
        Ok(position) => Says(Answer::wrote(Ok(position), run)),
        Err(_) => Lacks,
    }
}

/// A refusal with the run of argument i as it was.
fn refused(r: &Request, i: usize, number: u32) -> Heard {
    Says(Answer::wrote(Err(No(number)), r.run(i)))
}

fn mask(n: u32) -> Heard {
    match n {
        0..=64 => Says(Answer::wide(words::lsb_mask(n))),
        _ => Overflows((!CHECKED).then(|| Answer::wide(wrapped_mask(n)))),
    }
}

/// Low ones as the Rust makes them: past 64 their number counts around, from 1 to 64 again.
fn wrapped_mask(n: u32) -> u64 {
    if n == 0 { 0 } else { u64::MAX >> (63 - (n - 1) % 64) }
}

/// The length that the Rust takes for the element's: the width, halved and rounded down as long as
/// the two halves of the value are alike and it is above 2. A shift counts modulo 64.
fn element(value: u64, width: u32) -> u32 {
    let half = width / 2;
    let low = |bits: u64| bits % (1 << (half % 64));
    if low(value) != low(value >> (half % 64)) {
        2 * half
    } else if half > 2 {
        element(value, half)
    } else {
        half
    }
}

/// The fields of an element of any length: one run of ones, which R turns to the right. The ones are
/// a part from bit 0 on and a part from `start` to `end`; with none there, both are the length.
fn element_fields(value: u64, length: u32) -> Option<Fields> {
    let all = wrapped_mask(length);
    let bits = value & all;
    if bits == 0 || bits == all {
        return None;
    }
    let low = bits.trailing_ones();
    let high = bits >> low << low;
    let start = if high == 0 { length } else { high.trailing_zeros() };
    let filled = high | wrapped_mask(start);
    let end = if filled == u64::MAX { length } else { filled.trailing_ones() };
    // Nothing stands above the upper part, and it meets the lower one at the length.
    if filled != wrapped_mask(end) || (low > 0 && end != length) {
        return None;
    }
    let prefix = (64 - 2 * (length % 32)) % 64;
    Some([u32::from(length == 64), (end - start + low - 1) | prefix, length - start])
}

/// Fields at any width; None where an overflow panics. At 32 and 64 they are document 01's.
fn fields_at(value: u64, width: u32) -> Option<Option<Fields>> {
    let length = element(value, width);
    let overflows = width / 2 > 63 || length > 64;
    (!(CHECKED && overflows)).then(|| element_fields(value, length))
}

fn fields(r: &Request) -> Heard {
    fields_at(r.args[0], r.low(1)).map_or(Panics, Heard::fields)
}

/// Base and places are document 01's; what is too long for its place runs into the next ones, but the
/// registers are masked.
fn logical_word(r: &Request) -> Heard {
    let (value, width) = (r.args[1], r.low(2));
    let Some(base) = logical::base(r.low(0), width) else {
        return Lacks;
    };
    let registers = ((r.low(3) % 32) << 5) | (r.low(4) % 32);
    match fields_at(value, width) {
        Some(Some([n, s, turn])) => {
            written(r, 5, vec![base | n << 22 | turn << 16 | s << 10 | registers])
        }
        Some(None) => refused(r, 5, 3),
        None => Panics,
    }
}

/// Document 01's words, but that all ones have none, and a MOVN up to FFFFFFFF has bit 31 set. The
/// register's whole number is or-ed into each.
fn move_words(value: u64, rd: u32) -> Vec<u32> {
    let given = match value {
        u64::MAX => vec![],
        _ => moves::move_words(value, 0).unwrap_or_default(),
    };
    let bit_31 = |word: u32| if word >> 23 == 0x1280_0000 >> 23 { 1 << 31 } else { 0 };
    given.iter().map(|word| word | bit_31(*word) | rd).collect()
}

/// Document 01's words, with the register masked.
fn patchable_move(r: &Request) -> Heard {
    match moves::patchable_words(r.args[0], r.low(1), 0) {
        Ok(given) => written(r, 3, given.iter().map(|word| word | (r.low(2) % 32)).collect()),
        Err(_) => Lacks,
    }
}

/// The distance in steps, cut to the field and or-ed into the base; LDR 19 has its field split as
/// ADR's is. Off the step it is refused, whatever the base.
fn displaced(r: &Request, distance: i64) -> Heard {
    let Some(format) = FORMATS.get(r.low(0) as usize) else {
        return Lacks;
    };
    if distance % format.step != 0 {
        return refused(r, 3, 4);
    }
    let field = if r.low(0) == 5 { &[(2, 29), (17, 5)] } else { format.field };
    let steps = (format.greatest - format.least) / format.step + 1;
    let mut above = (distance / format.step).rem_euclid(steps) as u32;
    let mut word = r.low(1);
    for (bits, at) in field {
        word |= (above % (1 << bits)) << at;
        above >>= bits;
    }
    written(r, 3, vec![word])
}

/// Where the Rust counts a target's distance from: four bytes on, for ADRP from that page.
fn origin(r: &Request) -> u64 {
    displacements::page(r.low(0), r.place().address().wrapping_add(4))
}

/// A target's distance as the Rust counts it: the target keeps its low bits.
pub fn from_four(r: &Request) -> i64 {
    r.args[2].wrapping_sub(origin(r)) as i64
}

/// Whether that distance does not fit 64 signed bits.
pub fn overflows(r: &Request) -> bool {
    (r.args[2] as i64).checked_sub(origin(r) as i64).is_none()
}

/// A buffer's offset, the word's address, has 32 bits.
fn displaced_to(r: &Request) -> Heard {
    match r.place().address() {
        0x1_0000_0000.. => Lacks,
        _ if r.low(0) < 6 && CHECKED && overflows(r) => Panics,
        _ => displaced(r, from_four(r)).carrying(displacements::low_12(r.low(0), r.args[2])),
    }
}

/// Of any value the sign, and the seven bits from 48 on.
fn float(value: u64, width: u32) -> Heard {
    match width {
        64 => Says(Answer::numbers(&[(value >> 63 << 7) | (value >> 48 & 0x7F)])),
        _ => Lacks,
    }
}

/// Of any value the top bit of each even byte, and the low bit of each odd one.
fn byte_mask(value: u64) -> Heard {
    let bit = |byte: u64| value >> (8 * byte + 7 * (1 - byte % 2)) & 1;
    Says(Answer::numbers(&[(0..8).map(|byte| bit(byte) << byte).sum()]))
}

/// The three outputs by document 01's rule, also where the index is above its limit.
fn lmh(size: u32, index: u32) -> Heard {
    let (outputs, limit) = match size {
        1 => ([index % 4, index / 4, 15], 7),
        2 => ([2 * (index % 2), index / 2, 31], 3),
        _ => return Says(Answer::no(7)),
    };
    match index <= limit {
        true => Says(Answer::numbers(&outputs.map(u64::from))),
        false => Spoils(9, outputs.to_vec()),
    }
}

/// The Rust takes a map by its place in a list of its own, and has no eighth element.
fn size_op(r: &Request) -> Heard {
    let [table, size, accept, kind, element] = [0, 1, 2, 3, 4].map(|i| r.low(i));
    let listed = rust::size_op_maps().contains(&[table, size, accept]);
    if listed && kind < 8 && element < 7 { Says(by_document::answer(r)) } else { Lacks }
}

/// The size is looked at first, then the row, whose table ends at 5; at a zero base the size is
/// written.
fn picked(r: &Request) -> Heard {
    let (kind, element) = (r.low(0), r.low(1));
    if kind > 7 || element > 6 {
        return Lacks;
    }
    // Row 1 has every size.
    let Ok([_, size]) = simd::pick_fp_opcode(kind, element, (1, 1), (1, 1)) else {
        return Says(Answer::no(3));
    };
    let row = if element == 0 { r.low(3) } else { r.low(5) };
    let answer = by_document::answer(r);
    match row {
        6.. => Panics,
        _ if answer.is_no(10) => Spoils(10, vec![size]),
        _ => Says(answer),
    }
}
