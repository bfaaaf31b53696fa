//! Module 6. Random values at both sizes, every combination of right and wrong size, register and
//! room, and runs with every room at every position; each refusal and both from every base address.

use super::random::Random;
use super::{List, U32, WRONG_WIDTHS, placed, room};
use crate::replay::request::{Request, entry::*};

pub const LIST: List = List { number: 5, entries: &[PATCHABLE_MOVE], requests, any };

fn requests() -> Vec<Request> {
    let mut random = Random::new(6);
    let mut list = vec![];
    let value = 0x0123_4567_89AB_CDEF;
    for size in [32, 64].into_iter().chain(WRONG_WIDTHS) {
        for rd in [0, 1, 30, 31, 32, 63, U32] {
            for [len, position] in [[4, 0], [1, 0]] {
                list.push(Request::new(PATCHABLE_MOVE, &[value, size, rd, len, position]));
            }
        }
    }
    for size in [32, 64] {
        for len in 0..=8 {
            for position in (0..=len + 1).chain([1 << 32, u64::MAX - 1, u64::MAX]) {
                list.push(Request::new(PATCHABLE_MOVE, &[value, size, 7, len, position]));
            }
        }
        for value in [0, U32, U32 + 1, u64::MAX, !U32] {
            list.push(Request::new(PATCHABLE_MOVE, &[value, size, 9, 4, 0]));
        }
    }
    list.extend((0..300).map(|_| any(PATCHABLE_MOVE, &mut random)));
    let given = [[32, 7], [64, 7], [16, 7], [64, 31], [16, 31]];
    list.extend(placed(PATCHABLE_MOVE, &given.map(|[size, rd]| [value, size, rd])));
    list
}

fn any(entry: u64, random: &mut Random) -> Request {
    let size = if random.below(16) == 0 { random.number() } else { random.one_of(&[32, 64]) };
    let value = if random.below(4) == 0 { random.number() } else { random.value() };
    let rd = if random.below(8) == 0 { random.number() } else { random.below(31) };
    let [len, position] = room(random);
    Request::new(entry, &[value, size, rd, len, position])
}
