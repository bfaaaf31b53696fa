//! The stored archives: one with every kind of item, and one whose constants stand over the ends of
//! the program's buffer.

use crate::document::{displacements, logical, moves};

/// How many words the program reads at once.
pub const BUFFER: usize = 16_384;

const NOP: u32 = 0xD503_201F;

/// A wide move: its base, the place and the halfword, the register.
fn wide(base: u32, place: usize, halfword: u32, register: u32) -> u32 {
    base | (place as u32) << 21 | halfword << 5 | register
}

fn movz(register: u32) -> u32 {
    wide(0xD280_0000, 0, 0x1234, register)
}

fn movk(place: usize, halfword: u32, register: u32) -> u32 {
    wide(0xF280_0000, place, halfword, register)
}

fn movk32(place: usize, halfword: u32, register: u32) -> u32 {
    wide(0x7280_0000, place, halfword, register)
}

/// Constants of 1 to 4 words, of 12 that overwrite each other, those that fewer words would do for,
/// and what ends a constant.
fn constants() -> Vec<u32> {
    let mut words = vec![movk(2, 0x1234, 3), NOP, movk32(1, 0xFFFF, 30)];
    let values = [u64::MAX, 0x1234_5678, 0x1234_0000_5678_9ABC, 0x0123_4567_89AB_CDEF, 0];
    for (register, value) in (0..).zip(values) {
        words.extend(moves::move_words(value, register).expect("there is such a register"));
    }
    words.extend(moves::patchable_words(0x1234, 64, 0).expect("there is such a size"));
    words.extend(moves::patchable_words(0xFFFF_0000, 32, 30).expect("there is such a size"));
    // MOVN at 32, alone and with a MOVK; MOVN at 64 in the highest place.
    words.extend([0x1280_0001, 0x12BF_FFC0, movk32(0, 0x8000, 0), 0x92E0_0021]);
    words.push(0x9280_0001);
    words.extend((0..11).map(|i| movk(i as usize % 4, 0x1000 + i, 1)));
    // A MOVK of another register, another size, another place than there is, and to register 31.
    words.extend([movz(5), movk(1, 1, 5), movk(1, 1, 6), movz(5), movk32(1, 1, 5)]);
    words.extend([0x5280_0007, 0x72C0_0007, movz(8), movk(1, 1, 31), movz(9), movz(9)]);
    words
}

/// Each operation at each width: normal, with the same element turned once around, and of the widest
/// element there.
fn logicals() -> Vec<u32> {
    let mut words = vec![];
    for operation in 0..4 {
        for width in [32, 64] {
            let base = logical::base(operation, width).expect("there is such a width");
            let n = u32::from(width == 64);
            words.push(base | n << 22 | 7 << 10 | 3 << 5 | 4);
            words.push(base | 2 << 16 | 60 << 10 | 1 << 5);
            words.push(base | 63 << 16 | 48 << 10 | 31 << 5 | 31);
            words.push(base | n << 22 | 31 << 16 | 30 << 10);
        }
    }
    words
}

/// Each instruction of each format, as far as it goes both ways, a step each way and nowhere.
fn displaced() -> Vec<u32> {
    const BASES: [&[u32]; 6] = [
        &[0x1400_0000, 0x9400_0000],
        &[0x5400_0000, 0x5400_000F, 0x3400_001F, 0xB500_001E],
        &[0x3600_0000, 0xB7F8_001F],
        &[0x1000_0000, 0x1000_001F],
        &[0x9000_0000, 0x9000_0001],
        &[
            0x1800_0000,
            0x5800_001F,
            0x9800_0003,
            0xD800_0003,
            0x1C00_0000,
            0x5C00_0001,
            0x9C00_001F,
        ],
    ];
    const FAR: [(i64, i64, i64); 6] = [
        (4, -134_217_728, 134_217_724),
        (4, -1_048_576, 1_048_572),
        (4, -32_768, 32_764),
        (1, -1_048_576, 1_048_575),
        (4096, -4_294_967_296, 4_294_963_200),
        (4, -1_048_576, 1_048_572),
    ];
    let mut words = vec![];
    for (format, (bases, (step, least, greatest))) in (0..).zip(BASES.iter().zip(FAR)) {
        for base in *bases {
            for distance in [least, -step, 0, step, greatest] {
                let word = displacements::disp_word(format, *base, distance);
                words.push(word.expect("the distance is in reach"));
            }
        }
    }
    words
}

/// Words that are none of these: wide moves to register 31, at 32 in place 2 and 3, and with opc 01;
/// logical ones with N at 32 and with undefined fields; BC.cond, and the literal that Arm leaves
/// unallocated.
const UNKNOWN: [u32; 20] = [
    NOP,
    0xD280_001F,
    0x9280_001F,
    0xF280_001F,
    0x52C0_0000,
    0x12E0_0000,
    0xB280_0000,
    0x3280_0000,
    0x1240_1C22,
    0x9240_FC22,
    0x1200_7C22,
    0x1200_F822,
    0x9200_FC22,
    0x5400_0010,
    0xDC00_0000,
    0xDCFF_FFFF,
    0xD65F_03C0,
    0xF940_0000,
    0,
    u32::MAX,
];

fn bytes(words: &[u32]) -> Vec<u8> {
    words.iter().flat_map(|word| word.to_le_bytes()).collect()
}

/// Every kind of item. A constant that nothing follows is the last one, and three bytes are left.
pub fn stored() -> Vec<u8> {
    let mut words = constants();
    words.extend(logicals());
    words.extend(displaced());
    words.extend(UNKNOWN);
    words.extend([movz(2), movk(1, 0x5678, 2)]);
    let mut all = bytes(&words);
    all.extend(movk(2, 0x9ABC, 2).to_le_bytes());
    all.truncate(all.len() - 1);
    all
}

/// Constants of thousands of words: over the first buffer's end and over the second's, where the
/// first word is the buffer's last; and up to the third's, behind which another register's stands.
pub fn joined() -> Vec<u8> {
    let mut words = vec![NOP, movz(5)];
    let mut fill = |first: Option<u32>, upto: usize, register: u32, size: u32| {
        words.extend(first);
        while words.len() < upto {
            let (at, half) = (words.len(), words.len() as u32 % 0x1_0000);
            words.push(if size == 64 {
                movk(at % 4, half, register)
            } else {
                movk32(at % 2, half, register)
            });
        }
    };
    fill(None, BUFFER + 100, 5, 64);
    fill(Some(0x1280_0006), 2 * BUFFER - 1, 6, 32);
    fill(Some(movz(7)), 2 * BUFFER + 3, 7, 64);
    fill(Some(movz(8)), 3 * BUFFER, 8, 64);
    words.extend([movk(0, 1, 9), NOP]);
    bytes(&words)
}
