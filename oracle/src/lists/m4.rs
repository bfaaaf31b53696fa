//! Module 4. Decoding and normalising: every N, S and R at both widths, and numbers outside with
//! wrong widths.

use super::random::Random;
use super::{List, U32, WRONG_WIDTHS};
use crate::replay::request::{Request, entry::*};

pub const LIST: List = List { number: 3, entries: &[DECODE_LOGICAL, NORMALISE], requests, any };

fn requests() -> Vec<Request> {
    let mut list = vec![];
    for [n, s, r] in (0..2 * 64 * 64).map(|i| [i >> 12, i >> 6 & 63, i & 63]) {
        for entry in [DECODE_LOGICAL, NORMALISE] {
            list.extend([32, 64].map(|width| Request::new(entry, &[n, s, r, width])));
        }
    }
    let outside = [[2, 7, 0], [U32, 7, 0], [0, 64, 0], [1, U32, 0], [0, 60, 64], [1, 7, U32]];
    for entry in [DECODE_LOGICAL, NORMALISE] {
        for [n, s, r] in outside.into_iter().chain([[1, 7, 0], [0, 60, 5], [0, 63, 0]]) {
            let widths = [32, 64].into_iter().chain(WRONG_WIDTHS);
            list.extend(widths.map(|width| Request::new(entry, &[n, s, r, width])));
        }
    }
    list
}

fn any(entry: u64, random: &mut Random) -> Request {
    let field = |limit| {
        if random.below(16) == 0 { random.number() } else { random.below(limit) }
    };
    let [n, s, r] = [2, 64, 64].map(field);
    let width = if random.below(16) == 0 { random.number() } else { random.one_of(&[32, 64]) };
    Request::new(entry, &[n, s, r, width])
}
