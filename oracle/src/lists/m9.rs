//! Module 9. lmh: every size to 5 and index to 40, and large ones. Size op: each of the Rust's 23
//! maps with every kind and element to 8, and maps of our own. pick_fp_opcode: every kind and
//! element to 8 with every row to 6, as the used row and as the unused one, with several bases.

use super::random::Random;
use super::{List, U32};
use crate::replay::request::{Request, entry::*};
use crate::rust;

pub const LIST: List = List { number: 9, entries: &[LMH, SIZE_OP, PICK_FP], requests, any };

fn requests() -> Vec<Request> {
    let mut random = Random::new(9);
    let mut list = vec![];
    for size in (0..=5).chain([U32]) {
        for index in (0..=40).chain([1 << 31, U32, 1 << 32]) {
            list.push(Request::new(LMH, &[size, index]));
        }
    }
    for (kind, element) in (0..=8).flat_map(|kind| (0..=8).map(move |element| (kind, element))) {
        for map in rust::size_op_maps() {
            let [table, size, accept] = map.map(u64::from);
            list.push(Request::new(SIZE_OP, &[table, size, accept, kind, element]));
        }
        for [table, size, accept] in [[0, 0xFF, 0xFFFF], [1, 0xFF, 0xFFFF], [1, 15, 0], [2, 15, 15]]
        {
            list.push(Request::new(SIZE_OP, &[table, size, accept, kind, element]));
        }
        picks(&mut list, kind, element);
    }
    for [kind, element] in [[U32, 0], [6, U32], [U32, U32], [1 << 32, 0]] {
        list.push(Request::new(SIZE_OP, &[1, 15, 0xFFFF, kind, element]));
        list.push(Request::new(PICK_FP, &[kind, element, 7, 1, 7, 1]));
    }
    for entry in LIST.entries {
        list.extend((0..300).map(|_| any(*entry, &mut random)));
    }
    list
}

fn picks(list: &mut Vec<Request>, kind: u64, element: u64) {
    for row in 0..=6 {
        for base in [0, 0x0E20_D400, U32] {
            // The base and the row stand in both places, or the other place has wrong ones.
            list.push(Request::new(PICK_FP, &[kind, element, base, row, base, row]));
            let (other_base, other_row) = (0, U32);
            let args = match element {
                0 => [kind, element, base, row, other_base, other_row],
                _ => [kind, element, other_base, other_row, base, row],
            };
            list.push(Request::new(PICK_FP, &args));
        }
    }
}

fn any(entry: u64, random: &mut Random) -> Request {
    let mut small = |limit| {
        if random.below(32) == 0 { random.number() } else { random.below(limit) }
    };
    let (kind, element) = (small(9), small(9));
    let rows = [small(7), small(7)];
    match entry {
        LMH => Request::new(entry, &[small(4), small(10)]),
        SIZE_OP if small(4) == 0 => {
            let (table, size, accept) = (small(3), small(16), small(1 << 16));
            Request::new(entry, &[table, size, accept, kind, element])
        }
        SIZE_OP => {
            let [table, size, accept] = random.one_of(&rust::size_op_maps()).map(u64::from);
            Request::new(entry, &[table, size, accept, kind, element])
        }
        _ => {
            let mut base = || {
                if random.below(8) == 0 { 0 } else { random.value() }
            };
            Request::new(entry, &[kind, element, base(), rows[0], base(), rows[1]])
        }
    }
}
