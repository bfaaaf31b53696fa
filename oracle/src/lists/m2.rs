//! Module 2. Ids: every one to 70 in each place beside ids at the limits, with several high ids, and
//! random ones. Condition: 0 to 40, large and random. Shift map: 0 to 300, large and random.

use super::random::Random;
use super::{List, U32};
use crate::replay::request::{Request, entry::*};

pub const LIST: List = List {
    number: 2,
    entries: &[
        CHECK_GP_ID,
        CHECK_GP_ID2,
        CHECK_GP_ID3,
        CHECK_VEC_ID,
        CHECK_VEC_ID2,
        CHECK_VEC_ID3,
        CONDITION_FIELD,
        SHIFT_MAP,
    ],
    requests,
    any,
};

/// Ids on both sides of each limit.
const LIMITS: [u64; 5] = [0, 30, 31, 32, 63];

fn requests() -> Vec<Request> {
    let mut random = Random::new(2);
    let mut list = vec![];
    for id in (0..=70).chain([U32 - 1, U32, 1 << 32, u64::MAX]) {
        for hi in [0, 30, 31, 32, 63, 70, U32] {
            list.push(Request::new(CHECK_GP_ID, &[id, hi]));
        }
        list.push(Request::new(CHECK_VEC_ID, &[id]));
    }
    for id in (0..=70).chain([U32]) {
        for other in LIMITS {
            pairs(&mut list, id, other);
        }
        triples(&mut list, [id, 0, 30]);
    }
    for other in LIMITS {
        for third in LIMITS {
            triples(&mut list, [31, other, third]);
        }
    }
    list.extend(
        (0..=40).chain([U32 - 1, U32, 1 << 32]).map(|n| Request::new(CONDITION_FIELD, &[n])),
    );
    list.extend((0..=300).chain([U32, 1 << 32, u64::MAX]).map(|n| Request::new(SHIFT_MAP, &[n])));
    for entry in LIST.entries {
        list.extend((0..150).map(|_| any(*entry, &mut random)));
    }
    list
}

fn pairs(list: &mut Vec<Request>, id: u64, other: u64) {
    for [a, b] in [[id, other], [other, id]] {
        list.push(Request::new(CHECK_GP_ID2, &[a, b, 31]));
        list.push(Request::new(CHECK_GP_ID2, &[a, b, 63]));
        list.push(Request::new(CHECK_VEC_ID2, &[a, b]));
    }
}

/// Three ids in each turn of their order.
fn triples(list: &mut Vec<Request>, [a, b, c]: [u64; 3]) {
    for [a, b, c] in [[a, b, c], [c, a, b], [b, c, a]] {
        list.push(Request::new(CHECK_GP_ID3, &[a, b, c, 31]));
        list.push(Request::new(CHECK_GP_ID3, &[a, b, c, 63]));
        list.push(Request::new(CHECK_VEC_ID3, &[a, b, c]));
    }
}

/// Ids near the limits or anywhere, with a high id that is 31, 63, one of them or anything.
fn any(entry: u64, random: &mut Random) -> Request {
    let [a, b, c] =
        [0; 3].map(|_: u64| if random.below(2) == 0 { random.below(33) } else { random.number() });
    let hi = [31, 63, a, random.number()][random.below(4) as usize];
    match entry {
        CHECK_GP_ID => Request::new(entry, &[a, hi]),
        CHECK_GP_ID2 => Request::new(entry, &[a, b, hi]),
        CHECK_GP_ID3 => Request::new(entry, &[a, b, c, hi]),
        CHECK_VEC_ID => Request::new(entry, &[a]),
        CHECK_VEC_ID2 => Request::new(entry, &[a, b]),
        CHECK_VEC_ID3 => Request::new(entry, &[a, b, c]),
        _ => Request::new(entry, &[random.number()]),
    }
}
