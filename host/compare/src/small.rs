//! Small immediates, and the entries that refuse nothing: floats, byte masks, zero halfwords, register and condition checks.

use std::collections::HashMap;

use oracle::document::immediates::{expand_float, is_float_at};
use oracle::document::{registers, No};
use oracle::lists::random::Random;
use oracle::replay::request::{entry::*, Request};
use oracle::rust;
use vaimalofo::raw;

use crate::calls::compare;
use crate::decoder::{beyond, split};
use crate::parts::{number, one_in_two, random, Slice};
use crate::tally::Tally;
use crate::values;
use crate::work::Part;

// ---- floats

const WIDTHS: [u32; 3] = [16, 32, 64];

/// The value of an 8-bit float at one of the three widths.
fn float(imm8: u64, width: u32) -> u64 {
    expand_float(imm8 as u32, width).expect("the width is 16, 32 or 64")
}

/// All values of 16 bits, all floats at all widths with their neighbours, and mixed values.
pub fn floats(count: u64) -> Part {
    Part {
        name: "floats",
        what: format!("all 2^16 values at width 16, the 256 floats of each width with their neighbours, and {count} mixed values at any width"),
        items: (1 << 16) + 3 * 256 + count,
        check: Box::new(|i, tally| {
            let mut random = random(14, i);
            match (i >> 16, i & 0xFFFF) {
                (0, half) => {
                    let above = random.below(2) * random.value();
                    check_float(above << 16 | half, 16, tally)
                }
                (1, near @ 0..768) => check_neighbours(near & 255, WIDTHS[near as usize >> 8], tally),
                _ => {
                    let width = one_in_two(&mut random, &[16, 32, 64]) as u32;
                    check_float(any_float(&mut random, i), width, tally)
                }
            }
        }),
    }
}

/// A float, the numbers beside it, and it with each of 64 bits turned over: those above the width change nothing.
fn check_neighbours(imm8: u64, width: u32, tally: &mut Tally) {
    let value = float(imm8, width);
    let flipped = (0..64).map(|bit| value ^ 1 << bit);
    for near in [value, value.wrapping_sub(1), value + 1].into_iter().chain(flipped) {
        check_float(near, width, tally);
    }
}

/// A float of any of the widths, as it is, with a bit turned over or under other bits; or a mixed value.
fn any_float(random: &mut Random, i: u64) -> u64 {
    let width = random.one_of(&WIDTHS);
    let value = float(random.below(256), width);
    match random.below(4) {
        0 => value,
        1 => value ^ 1 << random.below(64),
        2 if width < 64 => value | random.value() << width,
        _ => values::mixed(random, i),
    }
}

/// The 8 bits, and whether there are any. At another width than 16, 32 and 64 the Rust cannot be asked.
fn check_float(value: u64, width: u32, tally: &mut Tally) {
    compare(&Request::new(ENCODE_FLOAT, &[value, width.into()]), 0, tally);
    let yes = match width {
        16 => IS_FP16,
        32 => IS_FP32,
        64 => IS_FP64,
        _ => return check_width(value, width, tally),
    };
    compare(&Request::new(yes, &[value]), 0, tally);
}

fn check_width(value: u64, width: u32, tally: &mut Tally) {
    let answer = raw::is_float_imm8(value, width).map_err(number);
    let document = is_float_at(value, width);
    match answer == document {
        true => tally.alone += 1,
        false => tally
            .fails(|| format!("float {value:x} at {width}: {answer:?}, document 01 {document:?}")),
    }
}

/// Every value at width 32, under other bits.
pub fn singles(slice: Slice) -> Part {
    let floats: HashMap<u64, u8> = (0..=255).map(|imm8| (float(imm8.into(), 32), imm8)).collect();
    Part {
        name: "singles",
        what: format!("{} 2^32 values as floats at width 32", slice.text()),
        items: slice.count(1 << 32),
        check: Box::new(move |i, tally| {
            let value = slice.item(i);
            check_single(value, floats.get(&value).copied(), tally)
        }),
    }
}

/// The Rust says whether a value of 32 bits is a float, and has no encoder for it.
fn check_single(value: u64, document: Option<u8>, tally: &mut Tally) {
    let under = value.wrapping_mul(0x9E37_79B1) << 32 | value;
    let (answer, yes) = (raw::float_imm8(under, 32), raw::is_float_imm8(under, 32));
    let original = rust::is_fp32_imm8(value as u32);
    let agree = answer.map_err(number) == document.ok_or(No(3))
        && yes == Ok(document.is_some())
        && original == document.is_some();
    match agree {
        true => {
            tally.same += 1;
            tally.alone += 1;
        }
        false => tally.fails(|| format!("float {under:x} at 32: {answer:?} {yes:?}, document 01 {document:?}, the Rust {original}")),
    }
}

// ---- byte masks and halfwords

/// All byte masks with their neighbours, values whose bytes are mostly 00 and FF, and the zero halfwords of mixed values.
pub fn bytes(count: u64) -> Part {
    Part {
        name: "bytes",
        what: format!("the 256 byte masks, each with every bit turned over; {count} values of bytes 00, FF and others as byte masks, and as many mixed ones for their zero halfwords"),
        items: 256 + count,
        check: Box::new(|i, tally| {
            let mut random = random(15, i);
            match i {
                0..256 => check_mask(byte_mask(i), tally),
                _ => {
                    compare(&Request::new(ENCODE_BYTE_MASK, &[any_bytes(&mut random)]), 0, tally);
                    let value = values::mixed(&mut random, i);
                    compare(&Request::new(COUNT_ZERO_HALF_WORDS, &[value]), 0, tally);
                }
            }
        }),
    }
}

/// The value that a byte mask spells.
fn byte_mask(imm8: u64) -> u64 {
    (0..8).map(|i| ((imm8 >> i & 1) * 0xFF) << (8 * i)).sum()
}

fn check_mask(value: u64, tally: &mut Tally) {
    let flipped = (0..64).map(|bit| value ^ 1 << bit);
    for near in [value].into_iter().chain(flipped) {
        compare(&Request::new(ENCODE_BYTE_MASK, &[near]), 0, tally);
    }
}

/// A byte mask, half of the time with one byte, and now and then with all of them, in place of which any stand.
fn any_bytes(random: &mut Random) -> u64 {
    let mask = byte_mask(random.below(256));
    match random.below(8) {
        0 => random.value(),
        1..5 => mask ^ random.below(256) << (8 * random.below(8)),
        _ => mask,
    }
}

// ---- registers and conditions

/// Every number as a register and as a condition, and each with a high id.
pub fn ids(slice: Slice) -> Part {
    let edges = beyond(128);
    let pairs = (edges.len() * edges.len()) as u64;
    Part {
        name: "ids",
        what: format!("{} 2^32 numbers as general registers, with some high id, as vector registers and as conditions; and so {pairs} pairs of a number and a high id", slice.text()),
        items: pairs + slice.count(1 << 32),
        check: Box::new(move |i, tally| match i.checked_sub(pairs) {
            None => {
                let (rest, high) = split(i, &edges);
                check_id(split(rest, &edges).1, high, tally)
            }
            Some(i) => {
                let id = slice.item(i) as u32;
                check_id(id, some_high(id), tally)
            }
        }),
    }
}

/// A high id that goes with the number: one of the two that there are, the number itself, or any.
fn some_high(id: u32) -> u32 {
    let mixed = id.wrapping_mul(0x9E37_79B1);
    [31, 63, id, mixed >> 8][mixed as usize >> 30]
}

fn check_id(id: u32, high: u32, tally: &mut Tally) {
    let entries = (raw::check_gp_id(id, high), raw::check_vec_id(id), raw::cond_field(id));
    let document = (
        registers::check_gp_id(id, high),
        registers::check_vec_ids(&[id]),
        registers::condition_field(id),
    );
    let original =
        (rust::check_gp_id(id, high), rust::check_vec_id(id), rust::cond_code_to_opcode_field(id));
    match entries == document && original == document {
        true => tally.same += 3,
        false => tally.fails(|| {
            format!("{id} with high id {high}: {entries:?}, document 01 {document:?}, the Rust {original:?}")
        }),
    }
}
