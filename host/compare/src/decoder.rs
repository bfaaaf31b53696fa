//! The decoder and the normaliser. The safe function of the decoder lends a run of its own; here the C entry is lent watched ones besides, of
//! any length.

use oracle::document::logical::{self, Fields};
use oracle::document::No;
use oracle::replay::request::{entry::*, Request};
use oracle::rust;
use vaimalofo::raw;

use crate::calls::{compare, Watched};
use crate::parts::{random, Slice};
use crate::tally::Tally;
use crate::work::Part;

extern "C" {
    fn vaimalofo_decode_logical(
        bytes: *mut u8,
        length: usize,
        n: u32,
        s: u32,
        r: u32,
        width: u32,
    ) -> u64;
}

/// The widths that there are, and others.
const WIDTHS: [u32; 14] = [64, 32, 0, 1, 2, 16, 31, 33, 63, 65, 96, 128, 1 << 31, u32::MAX];

/// Every number below one that is a power of two, then the powers from it on, and the greatest number.
pub fn beyond(below: u32) -> Vec<u32> {
    let powers = (below.ilog2()..32).map(|bit| 1 << bit);
    (0..below).chain(powers).chain([u32::MAX]).collect()
}

/// How many triples fit in 1, 6 and 6 bits, at two widths: they are asked in every slice.
const FITTING: u64 = 2 * 64 * 64 * 2;

fn fitting(i: u64) -> (Fields, u32) {
    let i = i as u32;
    ([i >> 13 & 1, i >> 7 & 63, i >> 1 & 63], WIDTHS[i as usize & 1])
}

/// Masks decoded, fields normalised, and masks encoded again.
pub fn decoder(slice: Slice) -> Part {
    let (one, six) = (beyond(4), beyond(128));
    let all = (one.len() * six.len() * six.len() * WIDTHS.len()) as u64;
    Part {
        name: "decoder",
        what: format!(
            "{} {all} fields N, S, R and widths, to beyond the limits of each, and all {FITTING} that fit: decoded, normalised, and encoded again",
            slice.text()
        ),
        items: FITTING + slice.count(all),
        check: Box::new(move |i, tally| {
            let length = random(13, i).below(20) as usize;
            let (fields, width) = match i.checked_sub(FITTING) {
                None => fitting(i),
                Some(i) => {
                    let (rest, width) = split(slice.item(i), &WIDTHS);
                    let (rest, r) = split(rest, &six);
                    let (rest, s) = split(rest, &six);
                    ([split(rest, &one).1, s, r], width)
                }
            };
            check_fields(fields, width, length, tally);
        }),
    }
}

/// The item of a list that a number names, and the number for the lists that are left.
pub fn split(number: u64, list: &[u32]) -> (u64, u32) {
    let count = list.len() as u64;
    (number / count, list[(number % count) as usize])
}

fn check_fields(fields: Fields, width: u32, length: usize, tally: &mut Tally) {
    let numbers = [fields[0], fields[1], fields[2], width].map(u64::from);
    compare(&Request::new(DECODE_LOGICAL, &numbers), 0, tally);
    compare(&Request::new(NORMALISE, &numbers), 0, tally);
    check_run(fields, width, length, tally);
    if let Ok(mask) = logical::decode_logical_imm(fields, width) {
        check_back(fields, width, mask, tally);
    }
}

/// A run of so many bytes, and every byte of it.
fn check_run(fields: Fields, width: u32, length: usize, tally: &mut Tally) {
    let before = [0xA500_0000, 0xA500_0001, 0xA500_0002, 0xA500_0003];
    let mut watched = Watched::new(&before[..length / 4], length % 4);
    let mut expected = watched.run().to_vec();
    let document = match logical::put_decoded(&mut expected, fields, width) {
        Ok(words) => words << 8,
        Err(No(number)) => number.into(),
    };
    let ([n, s, r], run) = (fields, watched.run());
    // SAFETY: pointer and length are the slice's, lent for the call.
    let answer = unsafe { vaimalofo_decode_logical(run.as_mut_ptr(), run.len(), n, s, r, width) };
    let same = answer == document && *run == expected;
    match watched.words() {
        Ok(_) if same => tally.alone += 1,
        Ok(words) => tally.fails(|| {
            format!("decoding {fields:?} at {width} in {length} bytes: {answer:x} {words:x?}, document 01 {document:x} {expected:x?}")
        }),
        Err(why) => tally.fails(|| format!("decoding {fields:?} at {width} in {length} bytes: {why}")),
    }
}

/// What the Rust encodes of a mask are the normal fields, and these decode to the mask.
fn check_back(fields: Fields, width: u32, mask: u64, tally: &mut Tally) {
    let [n, s, r] = fields;
    let normal = raw::normalise_logical(n, s, r, width).map(|f| [f.n, f.s, f.r]);
    let again = normal.and_then(|[n, s, r]| raw::decode_logical(n, s, r, width));
    let original = rust::encode_logical_imm(mask, width);
    match again == Ok(mask) && original == Ok(normal.ok()) {
        true => tally.same += 1,
        false => tally.fails(|| {
            format!("{mask:x} of {fields:?} at {width}: normal {normal:?}, decoded {again:x?}, the Rust {original:?}")
        }),
    }
}
