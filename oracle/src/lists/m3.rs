//! Module 3. Fields: every encodable value at both widths (at 32 some under other high bits), 4,200
//! that are not, neighbours by one and two bits among them, wrong widths and random ones. Words:
//! every combination of right and wrong operation, width, value, registers and room; random ones;
//! and from every base address.

use super::random::Random;
use super::{List, U32, WRONG_WIDTHS, placed, room};
use crate::document::logical;
use crate::replay::request::{Request, entry::*};

pub const LIST: List = List { number: 3, entries: &[ENCODE_LOGICAL, LOGICAL_WORD], requests, any };

fn requests() -> Vec<Request> {
    let mut random = Random::new(3);
    let mut list = vec![];
    for width in [32, 64] {
        let mut values: Vec<u64> = logical::masks(width).keys().copied().collect();
        values.sort();
        list.extend(values.iter().map(|value| fields(*value, width)));
        if width == 32 {
            let high = |value: &u64| fields(value ^ random.value() << 32, width);
            list.extend(values.iter().step_by(5).map(high));
        }
        list.extend((0..2100).map(|_| fields(unencodable(&values, width, &mut random), width)));
    }
    for value in [0, 1, 5, 0xF0, 0xFF, U32, 0xFFFF_FFFF_0000_0000, u64::MAX] {
        let high = value ^ random.value() << 32;
        list.extend([fields(value, 32), fields(value, 64), fields(high, 32)]);
        list.extend(WRONG_WIDTHS.map(|width| Request::new(ENCODE_LOGICAL, &[value, width])));
    }
    list.extend((0..200).map(|_| any(ENCODE_LOGICAL, &mut random)));
    words(&mut list);
    list.extend((0..200).map(|_| any(LOGICAL_WORD, &mut random)));
    list.extend(placed(LOGICAL_WORD, &GIVEN));
    list
}

/// Operation, value, width and registers: all right; one wrong, which is 7, 1, 2, 2 and 3; all
/// wrong, all but the operation, and all but the operation and the width.
const GIVEN: [[u64; 5]; 9] = [
    [1, 0xFF, 64, 1, 2],
    [4, 0xFF, 64, 1, 2],
    [0, 0xFF, 16, 1, 2],
    [2, 0xFF, 32, 32, 2],
    [3, 0xFF, 32, 1, 32],
    [0, 5, 64, 1, 2],
    [4, 5, 16, 32, 32],
    [0, 5, 16, 32, 32],
    [0, 5, 64, 32, 32],
];

fn fields(value: u64, width: u32) -> Request {
    Request::new(ENCODE_LOGICAL, &[value, width.into()])
}

/// A value that no fields spell: mostly one or two bits away from one that some do.
fn unencodable(values: &[u64], width: u32, random: &mut Random) -> u64 {
    loop {
        let [one, two] = [0; 2].map(|_| 1 << random.below(width.into()));
        let value = match random.below(4) {
            0 | 1 => random.one_of(values) ^ one,
            2 => random.one_of(values) ^ one ^ two,
            _ => random.value(),
        };
        if logical::encode_logical_imm(value, width).is_err() {
            return value;
        }
    }
}

fn words(list: &mut Vec<Request>) {
    let registers = [[0, 0], [30, 31], [31, 30], [0, 32], [32, 0], [63, 1], [31, 63], [U32, U32]];
    for operation in [0, 1, 2, 3, 4, U32] {
        for width in [32, 64, 0, 16, 65] {
            for value in [0xFF, 0xAAAA_AAAA_AAAA_AAAA, 5] {
                for [rn, rd] in registers {
                    for [len, position] in [[2, 0], [1, 1]] {
                        let args = [operation, value, width, rn, rd, len, position];
                        list.push(Request::new(LOGICAL_WORD, &args));
                    }
                }
            }
        }
    }
}

/// A value made of one turned run of ones in an element of any length, sometimes with bits flipped.
fn mask_like(random: &mut Random) -> u64 {
    let length = 2 << random.below(6);
    let run = (1u64 << random.below(length)) - 1;
    let turn = random.below(length);
    let bit = |k: u64| run >> ((k + turn) % length) & 1;
    let value = (0..64).map(|k| bit(k) << k).sum();
    match random.below(4) {
        0 => value ^ 1 << random.below(64),
        1 => value ^ 1 << random.below(64) ^ 1 << random.below(64),
        _ => value,
    }
}

fn any(entry: u64, random: &mut Random) -> Request {
    let value = if random.below(8) == 0 { random.value() } else { mask_like(random) };
    let width = if random.below(8) == 0 { random.number() } else { random.one_of(&[32, 64]) };
    if entry == ENCODE_LOGICAL {
        return Request::new(entry, &[value, width]);
    }
    let mut register = || {
        if random.below(4) == 0 { random.number() } else { random.below(32) }
    };
    let (rn, rd) = (register(), register());
    let operation = if random.below(16) == 0 { random.number() } else { random.below(4) };
    let [len, position] = room(random);
    Request::new(entry, &[operation, value, width, rn, rd, len, position])
}
