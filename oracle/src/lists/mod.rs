//! The lists of requests, one file for each module of document 01.
//!
//! An entry that writes is asked from base address 0 where nothing else is said, and then, by
//! document 02's request g, at many places: see `placed`.

pub mod m1;
pub mod m2;
pub mod m3;
pub mod m4;
pub mod m5;
pub mod m6;
pub mod m7;
pub mod m8;
pub mod m9;
pub mod random;

use crate::document::displacements::page;
use crate::document::words::Place;
use crate::replay::request::{Request, entry::*};
use random::Random;

/// The list of a module: the number that names it, the module's entries, the requests, and any one
/// request of an entry.
pub struct List {
    pub number: u64,
    pub entries: &'static [u64],
    pub requests: fn() -> Vec<Request>,
    pub any: fn(u64, &mut Random) -> Request,
}

impl List {
    /// Any one request of an entry, with any base address: the cross-check makes many. Often the
    /// base stays as it is; else it is a multiple of 4 or not, near 0, near 2^64 or anywhere.
    pub fn anywhere(&self, entry: u64, random: &mut Random) -> Request {
        let request = (self.any)(entry, random);
        let base = match random.below(8) {
            0 => random.value(),
            1 => random.below(64),
            2 => (4 * random.below(16)).wrapping_neg(),
            3 => random.below(1 << 32) & !3,
            4 => random.value() & !3,
            _ => request.place().base,
        };
        request.moved(base)
    }
}

/// Every list. Number 3 names modules 3 and 4, and 5 names 5 and 6.
pub const LISTS: [List; 9] =
    [m1::LIST, m2::LIST, m3::LIST, m4::LIST, m5::LIST, m6::LIST, m7::LIST, m8::LIST, m9::LIST];

const U32: u64 = u32::MAX as u64;

/// Widths that are neither 32 nor 64.
const WRONG_WIDTHS: [u64; 10] = [0, 1, 2, 16, 31, 33, 63, 65, 128, U32];

/// Base addresses: the first multiples of 4, what is none, and the last multiple.
const BASE_ADDRESSES: [u64; 6] = [0, 4, 1, 2, 3, u64::MAX - 3];

/// An entry that writes, from each base address. What is given first is asked in runs of 0 to 8
/// words: at the start, one word on, at the end, past it, and where four times the position passes
/// 2^64. All that is given is asked in a run of four words: with room, at its end and at 2^62.
fn placed<const N: usize>(entry: u64, given: &[[u64; N]]) -> Vec<Request> {
    let mut list = vec![];
    let mut ask = |given: &[u64; N], len, positions: &[u64]| {
        for position in positions {
            let at = |base| Place { base, position: *position };
            list.extend(BASE_ADDRESSES.map(|base| request_at(entry, given, len, at(base))));
        }
    };
    for len in 0..=8 {
        ask(&given[0], len, &[0, 1, len, len + 1, 1 << 62, u64::MAX]);
    }
    given.iter().for_each(|given| ask(given, 4, &[0, 4, 1 << 62]));
    list
}

/// A request in a run of so many words, which in bytes have a tail. A target is given by its
/// distance from the place, for ADRP from its page.
fn request_at(entry: u64, given: &[u64], len: u64, at: Place) -> Request {
    match (entry, given) {
        (PUT_BYTES, _) => Request::writing(entry, given, 4 * len + len % 4, at),
        (DISP_TARGET, [number, word, distance]) => {
            let target = page(*number as u32, at.address()).wrapping_add(*distance);
            Request::writing(entry, &[*number, *word, target], len, at)
        }
        _ => Request::writing(entry, given, len, at),
    }
}

/// A run and a position in it: mostly with room for four words.
fn room(random: &mut Random) -> [u64; 2] {
    match random.below(16) {
        0 => [random.below(9), random.below(10)],
        1 => [random.below(9), random.value()],
        _ => [4 + random.below(2), random.below(2)],
    }
}
