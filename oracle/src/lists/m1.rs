//! Module 1. Bit test: edge values at every n to 40 and at large n, and random pairs. Mask: every n
//! to 70. Writers: every length at positions on both sides of the end with 0 to 5 words; 0 to 4
//! words from every base address. Numbers that are no entry's.

use super::random::Random;
use super::{List, U32, placed};
use crate::replay::request::{Request, entry::*};

pub const LIST: List =
    List { number: 1, entries: &[BIT_TEST, LSB_MASK, PUT, PUT_BYTES], requests, any };

const WORDS: [u64; 4] = [0x1111_1111, 0xFEDC_BA98, 0, U32];

fn requests() -> Vec<Request> {
    let mut random = Random::new(1);
    let mut list = vec![];
    for n in (0..=40).chain([63, 64, 255, 1 << 31, U32, 1 << 32, (1 << 32) + 31, u64::MAX]) {
        for value in [0, 1, 2, 0x8000_0000, 0xA5A5_A5A5, U32, u64::MAX - U32, random.value()] {
            list.push(Request::new(BIT_TEST, &[value, n]));
        }
    }
    list.extend((0..500).map(|_| any(BIT_TEST, &mut random)));
    for n in (0..=70).chain([128, 1 << 31, U32, 1 << 32]) {
        list.push(Request::new(LSB_MASK, &[n]));
    }
    writers(&mut list);
    for entry in [0, 1, 15, 255, 1000, (1 << 32) + BIT_TEST, u64::MAX] {
        list.push(Request::new(entry, &[1, 1, 1]));
    }
    let [a, b, c, d] = WORDS;
    for entry in [PUT, PUT_BYTES] {
        list.extend(placed(entry, &[2, 0, 1, 4].map(|count| [count, a, b, c, d])));
    }
    list
}

fn writers(list: &mut Vec<Request>) {
    let far = [1 << 32, (1 << 62) + 1, u64::MAX - 3, u64::MAX];
    let [a, b, c, d] = WORDS;
    for count in [0, 1, 2, 3, 4, 5, U32] {
        for len in 0..=8 {
            for position in (0..=len + 1).chain(far) {
                list.push(Request::new(PUT, &[len, position, count, a, b, c, d]));
            }
        }
        for len in 0..=32 {
            let end: u64 = len / 4;
            for position in [0, end.saturating_sub(2), end, end + 1].into_iter().chain(far) {
                list.push(Request::new(PUT_BYTES, &[len, position, count, a, b, c, d]));
            }
        }
    }
}

fn any(entry: u64, random: &mut Random) -> Request {
    match entry {
        BIT_TEST => Request::new(entry, &[random.value(), random.number()]),
        LSB_MASK => Request::new(entry, &[random.number()]),
        _ => {
            let [a, b, c, d] = [0; 4].map(|_: u64| random.value());
            let position = if random.below(8) == 0 { random.value() } else { random.below(10) };
            let count = random.below(6);
            Request::new(entry, &[random.number(), position, count, a, b, c, d])
        }
    }
}
