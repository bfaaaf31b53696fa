//! The Rust beside document 01's model on many requests: equal, or of a known class. And what the
//! model says of its own answers.

use oracle::document::displacements::{disp_word, read_disp};
use oracle::document::immediates::expand_float;
use oracle::document::moves::{move_words, patchable_words};
use oracle::lists::{LISTS, random::Random};
use oracle::replay::answer::{Answer, Said, packed};
use oracle::replay::by_document::answer;
use oracle::replay::request::{Request, entry::*};
use oracle::replay::settle;
use oracle::rust;

/// Random requests for each entry.
const ROUNDS: usize = 300_000;

fn settles(request: &Request) {
    if let Err(why) = settle(request) {
        panic!("{why}");
    }
}

fn agree(module: usize) {
    let list = &LISTS[module - 1];
    for entry in list.entries {
        let mut random = Random::new(1000 + entry);
        (0..ROUNDS).for_each(|_| settles(&list.anywhere(*entry, &mut random)));
    }
}

#[test]
fn module_1() {
    agree(1);
}

#[test]
fn module_2() {
    agree(2);
}

#[test]
fn modules_3_and_4() {
    agree(3);
    agree(4);
}

#[test]
fn modules_5_and_6() {
    agree(5);
    agree(6);
}

#[test]
fn module_7() {
    agree(7);
}

#[test]
fn module_8() {
    agree(8);
}

#[test]
fn module_9() {
    agree(9);
}

/// Every float and every byte mask with each of its neighbours by one bit.
#[test]
fn all_neighbours() {
    for imm8 in 0..256u32 {
        for (width, is_float) in [(16, IS_FP16), (32, IS_FP32), (64, IS_FP64)] {
            let value = expand_float(imm8, width).unwrap();
            for near in (0..width).map(|bit| value ^ 1 << bit) {
                settles(&Request::new(ENCODE_FLOAT, &[near, width.into()]));
                settles(&Request::new(is_float, &[near]));
            }
        }
        let mask: u64 = (0..8).map(|i| (u64::from(imm8 >> i & 1) * 0xFF) << (8 * i)).sum();
        for near in (0..64).map(|bit| mask ^ 1 << bit) {
            settles(&Request::new(ENCODE_BYTE_MASK, &[near]));
            settles(&Request::new(IS_BYTE_MASK, &[near]));
        }
    }
}

/// The argument x changes nothing, and the 32-bit part is the long one's answer to FFFFFFFF.
#[test]
fn the_rust_ignores_x() {
    let mut random = Random::new(2000);
    for _ in 0..ROUNDS {
        let (value, rd) = (random.value() >> random.below(64), random.below(31) as u32);
        let words = rust::encode_mov_sequence64(value, rd, 0);
        assert_eq!(words, rust::encode_mov_sequence64(value, rd, 1));
        if let Ok(value) = u32::try_from(value) {
            assert_eq!(words, rust::encode_mov_sequence32(value, rd, 1));
        }
    }
}

/// Arm's MOVZ, MOVN and MOVK, run over one register.
fn run(words: &[u32], mut old: u64) -> u64 {
    for word in words {
        let (half, place) = (u64::from(word >> 5 & 0xFFFF), 16 * (word >> 21 & 3));
        let new = match word >> 23 & 0xFF {
            0xA5 => half << place,
            0x25 => !(half << place),
            0xE5 => old & !(0xFFFF << place) | half << place,
            _ => panic!("{word:08x} is no wide move"),
        };
        old = if word >> 31 == 1 { new } else { new & 0xFFFF_FFFF };
    }
    old
}

/// The words of the model leave the value in the register, whatever it held.
#[test]
fn moves_arrive() {
    let mut random = Random::new(2001);
    for _ in 0..ROUNDS {
        let value = (LISTS[4].any)(MOVE, &mut random).args[0];
        for old in [0, u64::MAX, random.value()] {
            assert_eq!(run(&move_words(value, 5).unwrap(), old), value);
            assert_eq!(run(&patchable_words(value, 64, 5).unwrap(), old), value);
            assert_eq!(run(&patchable_words(value, 32, 5).unwrap(), old), value & 0xFFFF_FFFF);
        }
    }
}

/// A displacement that the model writes is the one that it reads.
#[test]
fn displacements_read_back() {
    let mut random = Random::new(2002);
    for _ in 0..ROUNDS {
        let request = (LISTS[6].any)(DISP_IMM, &mut random);
        let (format, distance) = (request.low(0), request.args[2] as i64);
        if let Ok(word) = disp_word(format, request.low(1), distance) {
            assert_eq!(read_disp(word, format), Ok(distance));
        }
    }
}

/// The entries that write words: module, entry, and the argument that gives the length of the run.
const WRITERS: [(usize, u64, usize); 7] = [
    (1, PUT, 0),
    (1, PUT_BYTES, 0),
    (3, LOGICAL_WORD, 5),
    (5, MOVE, 2),
    (6, PATCHABLE_MOVE, 3),
    (7, DISP_IMM, 3),
    (7, DISP_TARGET, 3),
];

/// A base address that is a multiple of 4 changes no answer, if a target moves along, for ADRP by
/// whole pages; any other is refused with 15, whatever else is wrong, and the run is as it was.
#[test]
fn the_base_address_moves_targets_alone() {
    for (module, entry, i) in WRITERS {
        let mut random = Random::new(3000 + entry);
        for _ in 0..ROUNDS {
            let request = (LISTS[module - 1].any)(entry, &mut random);
            let base = request.place().base;
            let elsewhere = request.moved(base.wrapping_add(random.value() << 12));
            assert_eq!(answer(&elsewhere), answer(&request), "{elsewhere}");
            let off = request.moved(base + 1 + random.below(3));
            let run = if entry == PUT_BYTES { packed(&off.byte_run(i)) } else { off.run(i) };
            assert_eq!(answer(&off), Answer { said: Said::No(15), run }, "{off}");
        }
    }
}
