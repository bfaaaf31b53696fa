//! Every function, every refusal in its order, and the bytes around what is written. Calls are asked on bare numbers; where these have
//! types, the typed function is asked as well and must do the same.

use std::fmt::Debug;

use asked::{displacement, displacement_to, logical_fields, logical_word, mov, patchable_mov};
use asked::{retarget, retarget_to};
use vaimalofo::{
    raw, words, Address, ByteDistance, Error, Fields, Format, Logical, LogicalOp, Place, Reached,
    Refusal, Reg, Width, WordPos,
};

/// The functions on bare numbers, each held to the typed one.
mod asked {
    use super::*;

    /// A typed function's answer without its operands, which must be the same.
    pub fn agreed<T: PartialEq + Debug>(
        typed: Result<T, Error>,
        bare: Result<T, Refusal>,
    ) -> Result<T, Refusal> {
        assert_eq!(typed.map_err(|error| error.refusal()), bare);
        bare
    }

    /// The same of functions that write: the same bytes too.
    fn written<T: PartialEq + Debug>(
        run: &mut [u8],
        typed: Option<impl Fn(&mut [u8]) -> Result<T, Error>>,
        bare: impl Fn(&mut [u8]) -> Result<T, Refusal>,
    ) -> Result<T, Refusal> {
        let mut again = run.to_vec();
        let answer = bare(run);
        match typed {
            Some(typed) => {
                let answer = agreed(typed(&mut again), answer);
                assert_eq!(run, again);
                answer
            }
            None => answer,
        }
    }

    pub fn mov(run: &mut [u8], at: Place, value: u64, register: u32) -> Result<Place, Refusal> {
        let typed = Reg::new(register)
            .map(|register| move |run: &mut [u8]| vaimalofo::mov(run, at, value, register));
        written(run, typed, |run| raw::mov(run, at, value, register))
    }

    pub fn patchable_mov(
        run: &mut [u8],
        at: Place,
        value: u64,
        size: u32,
        register: u32,
    ) -> Result<Place, Refusal> {
        let types = Width::from_bits(size).zip(Reg::new(register));
        let typed = types.map(|(size, register)| {
            move |run: &mut [u8]| vaimalofo::patchable_mov(run, at, value, size, register)
        });
        written(run, typed, |run| raw::patchable_mov(run, at, value, size, register))
    }

    pub fn logical_fields(value: u64, width: u32) -> Result<Fields, Refusal> {
        let bare = raw::logical_fields(value, width);
        match Width::from_bits(width) {
            Some(width) => agreed(vaimalofo::logical_fields(value, width), bare),
            None => bare,
        }
    }

    /// The operation, the width, rn and rd.
    pub fn logical_word(
        run: &mut [u8],
        at: Place,
        numbers: (u32, u32, u32, u32),
        value: u64,
    ) -> Result<Place, Refusal> {
        let (operation, width, rn, rd) = numbers;
        let types = LogicalOp::from_number(operation).zip(Width::from_bits(width));
        let registers = Reg::new(rn).zip(Reg::new(rd));
        let typed = types.zip(registers).map(|((operation, width), (rn, rd))| {
            let instruction = Logical { operation, width, rn, rd };
            move |run: &mut [u8]| vaimalofo::logical_word(run, at, instruction, value)
        });
        written(run, typed, |run| raw::logical_word(run, at, operation, value, width, rn, rd))
    }

    pub fn displacement(
        run: &mut [u8],
        at: Place,
        format: u32,
        base: u32,
        distance: i64,
    ) -> Result<Place, Refusal> {
        let typed = Format::from_number(format).map(|format| {
            let distance = ByteDistance(distance);
            move |run: &mut [u8]| vaimalofo::displacement(run, at, format, base, distance)
        });
        written(run, typed, |run| raw::displacement(run, at, format, base, distance))
    }

    pub fn displacement_to(
        run: &mut [u8],
        at: Place,
        format: u32,
        base: u32,
        target: u64,
    ) -> Result<Reached, Refusal> {
        let typed = Format::from_number(format).map(|format| {
            move |run: &mut [u8]| vaimalofo::displacement_to(run, at, format, base, Address(target))
        });
        written(run, typed, |run| raw::displacement_to(run, at, format, base, target))
    }

    pub fn retarget(
        run: &mut [u8],
        at: Place,
        format: u32,
        distance: i64,
    ) -> Result<Place, Refusal> {
        let typed = Format::from_number(format).map(|format| {
            move |run: &mut [u8]| vaimalofo::retarget(run, at, format, ByteDistance(distance))
        });
        written(run, typed, |run| raw::retarget(run, at, format, distance))
    }

    pub fn retarget_to(
        run: &mut [u8],
        at: Place,
        format: u32,
        target: u64,
    ) -> Result<Reached, Refusal> {
        let typed = Format::from_number(format).map(|format| {
            move |run: &mut [u8]| vaimalofo::retarget_to(run, at, format, Address(target))
        });
        written(run, typed, |run| raw::retarget_to(run, at, format, target))
    }

    pub fn has_form(format: u32, word: u32) -> Result<bool, Refusal> {
        let bare = raw::has_form(format, word);
        match Format::from_number(format) {
            Some(format) => agreed(Ok(vaimalofo::has_form(format, word)), bare),
            None => bare,
        }
    }

    pub fn read_displacement(word: u32, format: u32) -> Result<i64, Refusal> {
        let bare = raw::read_displacement(word, format);
        match Format::from_number(format) {
            Some(format) => agreed(Ok(vaimalofo::read_displacement(word, format).0), bare),
            None => bare,
        }
    }

    pub fn decode_logical(n: u32, s: u32, r: u32, width: u32) -> Result<u64, Refusal> {
        let bare = raw::decode_logical(n, s, r, width);
        match Width::from_bits(width) {
            Some(width) => agreed(vaimalofo::decode_logical(n, s, r, width), bare),
            None => bare,
        }
    }

    pub fn normalise_logical(n: u32, s: u32, r: u32, width: u32) -> Result<Fields, Refusal> {
        let bare = raw::normalise_logical(n, s, r, width);
        match Width::from_bits(width) {
            Some(width) => agreed(vaimalofo::normalise_logical(n, s, r, width), bare),
            None => bare,
        }
    }
}

/// The greatest address that a word has.
const LAST: u64 = 0xFFFF_FFFF_FFFF_FFFC;

/// Base addresses that every call is tried at, and ones that get 15 whatever else is wrong.
const ALIGNED: [u64; 3] = [0, 4, LAST];
const UNALIGNED: [u64; 5] = [1, 2, 3, 0x1002, u64::MAX];

/// The formats' numbers.
const BRANCH_26: u32 = Format::Branch26.number();
const ADR_21: u32 = Format::Adr21.number();
const ADRP_21: u32 = Format::Adrp21.number();
const LDR_19: u32 = Format::Ldr19.number();

const fn place(base: u64, position: usize) -> Place {
    Place { base: Address(base), position: WordPos(position) }
}

/// The first word of a run at base address 0.
const START: Place = place(0, 0);

/// What every byte of a run holds before a call.
fn filled(length: usize) -> Vec<u8> {
    (0..length).map(|i| 0xA5 ^ i as u8).collect()
}

/// The word at a position.
fn word_at(run: &[u8], position: usize) -> u32 {
    words(run).nth(position).expect("a run with such a word")
}

/// Writes into runs of `room` bytes and a tail of 0 to 3, from each position on, at each base address; `expected` is what a call gives
/// where there is room. All bytes but those of the words, the tail among them, must be as before, and all of them where the words do
/// not fit or the base address is not a multiple of 4.
fn at_every_place(expected: &[u32], write: impl Fn(&mut [u8], Place) -> Result<Place, Refusal>) {
    over_every_place(None, expected, write);
}

/// The same over a word that stands at the place already.
fn over_every_place(
    old: Option<u32>,
    expected: &[u32],
    write: impl Fn(&mut [u8], Place) -> Result<Place, Refusal>,
) {
    for room in (0..=6).map(|words| words * 4) {
        for tail in 0..4 {
            for position in (0..8).chain([usize::MAX / 4, usize::MAX - 1, usize::MAX]) {
                let mut before = filled(room + tail);
                let fits = position <= room / 4 && expected.len() <= room / 4 - position;
                if let Some(old) = old.filter(|_| fits) {
                    before[position * 4..][..4].copy_from_slice(&old.to_le_bytes());
                }
                let mut after = before.clone();
                if fits {
                    let bytes: Vec<u8> =
                        expected.iter().flat_map(|word| word.to_le_bytes()).collect();
                    after[position * 4..][..bytes.len()].copy_from_slice(&bytes);
                }
                for base in ALIGNED {
                    let end = || place(base, position + expected.len());
                    let mut run = before.clone();
                    let answer = write(&mut run, place(base, position));
                    assert_eq!(answer, fits.then(end).ok_or(Refusal::NoRoom));
                    assert_eq!(run, after);
                }
                unaligned(&before, position, &write);
            }
        }
    }
}

/// 15 at each base address that is not a multiple of 4, and every byte as before.
fn unaligned(
    before: &[u8],
    position: usize,
    write: impl Fn(&mut [u8], Place) -> Result<Place, Refusal>,
) {
    for base in UNALIGNED {
        let mut run = before.to_vec();
        assert_eq!(write(&mut run, place(base, position)), Err(Refusal::Unaligned));
        assert_eq!(run, before);
    }
}

/// A refusal, with a run that has room and one that has none: every byte as before. Before it comes 15.
fn refused(refusal: Refusal, write: impl Fn(&mut [u8], Place) -> Result<Place, Refusal>) {
    for length in [0, 3, 16, 19] {
        for position in [0, 1, 9, usize::MAX] {
            refused_in(&filled(length), position, refusal, &write);
        }
    }
}

/// A refusal in a run at a position, at every base address.
fn refused_in(
    before: &[u8],
    position: usize,
    refusal: Refusal,
    write: impl Fn(&mut [u8], Place) -> Result<Place, Refusal>,
) {
    for base in ALIGNED {
        let mut run = before.to_vec();
        assert_eq!(write(&mut run, place(base, position)), Err(refusal));
        assert_eq!(run, before);
    }
    unaligned(before, position, &write);
}

/// The base and four times the position, modulo 2^64, in numbers that have room for it.
fn address(at: Place) -> u64 {
    (u128::from(at.base.0) + 4 * at.position.0 as u128) as u64
}

/// The target that lies so far from the instruction, or for ADRP from its page.
fn target(at: Place, format: u32, distance: i64) -> u64 {
    let origin = if format == ADRP_21 { address(at) & !0xFFF } else { address(at) };
    origin.wrapping_add_signed(distance)
}

/// The place that was reached, where the low bits are the target's for ADRP and none elsewhere.
fn with_low_bits(
    answer: Result<Reached, Refusal>,
    format: u32,
    target: u64,
) -> Result<Place, Refusal> {
    let Reached { place, low12 } = answer?;
    assert_eq!(low12, (format == ADRP_21).then_some(target as u32 & 0xFFF));
    Ok(place)
}

/// [`displacement_to`] for the helpers above, to a target so far off.
fn to(run: &mut [u8], at: Place, format: u32, base: u32, distance: i64) -> Result<Place, Refusal> {
    let target = target(at, format, distance);
    with_low_bits(displacement_to(run, at, format, base, target), format, target)
}

/// [`retarget_to`] likewise.
fn again_to(run: &mut [u8], at: Place, format: u32, distance: i64) -> Result<Place, Refusal> {
    let target = target(at, format, distance);
    with_low_bits(retarget_to(run, at, format, target), format, target)
}

#[test]
fn moves() {
    let cases: [(u32, u64, &[u32]); 9] = [
        (0, 0, &[0xD2800000]),
        (1, 0xFFFFFFFE, &[0x12800021]),
        (0, 0x12345678, &[0xD28ACF00, 0xF2A24680]),
        (0, 0x1_0000_0000_0000, &[0xD2E00020]),
        (0, 0x1FFFF, &[0x12BFFFC0]),
        (3, u64::MAX, &[0x92800003]),
        (30, 0x1234_5678_9ABC_DEF0, &[0xD29BDE1E, 0xF2B3579E, 0xF2CACF1E, 0xF2E2469E]),
        (7, 0xFFFF_FFFF_1234_FFFF, &[0x92BDB967]),
        (7, 0x1234_FFFF_5678_FFFF, &[0x92B530E7, 0xF2E24687]),
    ];
    for (register, value, expected) in cases {
        at_every_place(expected, |run, at| mov(run, at, value, register));
    }
    for register in [31, 32, 63, u32::MAX] {
        refused(Refusal::Register, |run, at| mov(run, at, 1, register));
    }
}

#[test]
fn patchable_moves() {
    at_every_place(&[0xD2800005, 0xF2A00005, 0xF2C00005, 0xF2E00005], |run, at| {
        patchable_mov(run, at, 0, 64, 5)
    });
    at_every_place(&[0xD29BDE1E, 0xF2B3579E, 0xF2CACF1E, 0xF2E2469E], |run, at| {
        patchable_mov(run, at, 0x1234_5678_9ABC_DEF0, 64, 30)
    });
    at_every_place(&[0x529BDE1E, 0x72B3579E], |run, at| {
        patchable_mov(run, at, 0x1234_5678_9ABC_DEF0, 32, 30)
    });
    for size in [0, 16, 31, 33, 63, 65, 128, u32::MAX] {
        refused(Refusal::Width, |run, at| patchable_mov(run, at, 0, size, 31));
    }
    for size in [32, 64] {
        refused(Refusal::Register, |run, at| patchable_mov(run, at, 0, size, 31));
    }
}

/// Each halfword 0 or another, which may have one bit set alone.
#[test]
fn zero_halfwords_are_counted() {
    for zeros in 0..16_u32 {
        for other in (0..16).map(|bit| 1 << bit).chain([0xFFFF, 0x1234]) {
            let halfwords = (0..4).filter(|half| zeros >> half & 1 == 0);
            let value = halfwords.map(|half| other << (16 * half)).sum();
            assert_eq!(vaimalofo::count_zero_half_words_64(value), zeros.count_ones());
            assert_eq!(raw::count_zero_half_words(value), zeros.count_ones(), "{value:x}");
        }
    }
}

#[test]
fn fields() {
    // Value, width, N, S, R and the element's length: each length at both widths.
    let cases = [
        (0x5555_5555_5555_5555, 64, 0, 60, 0, 2),
        (0xAAAA_AAAA_AAAA_AAAA, 64, 0, 60, 1, 2),
        (0x7777_7777_7777_7777, 64, 0, 58, 0, 4),
        (0x8181_8181_8181_8181, 64, 0, 49, 1, 8),
        (0x0FF0_0FF0_0FF0_0FF0, 64, 0, 39, 12, 16),
        (0x00FF_FF00_00FF_FF00, 64, 0, 15, 24, 32),
        (0xFF, 64, 1, 7, 0, 64),
        (0x8000_0000_0000_0001, 64, 1, 1, 1, 64),
        (0x7FFF_FFFF_FFFF_FFFF, 64, 1, 62, 0, 64),
        (0xFFFF_FFFF_FFFF_FFFE, 64, 1, 62, 63, 64),
        (0xAAAA_AAAA, 32, 0, 60, 1, 2),
        (0x8888_8888, 32, 0, 56, 1, 4),
        (0xE0E0_E0E0, 32, 0, 50, 3, 8),
        (0x0001_0001, 32, 0, 32, 0, 16),
        (0xFFF0_0FFF, 32, 0, 23, 12, 32),
        (0x1_0000_00FF, 32, 0, 7, 0, 32),
    ];
    for (value, width, n, s, r, length) in cases {
        assert_eq!(logical_fields(value, width), Ok(Fields { n, s, r, length }), "{value:x}");
    }
    for (width, value) in
        [(64, 5), (64, 0), (64, u64::MAX), (32, 0), (32, 0xFFFFFFFF), (32, 0xFFFFFFFF_00000000)]
    {
        assert_eq!(logical_fields(value, width), Err(Refusal::NoField));
    }
    for width in [0, 2, 16, 31, 33, 128, u32::MAX] {
        assert_eq!(logical_fields(1, width), Err(Refusal::Width));
    }
}

/// Every value that has fields: a run of each length at each turn in an element of each length, copied to 64 bits; up to 32 bits long,
/// at both widths. The value repeats after its element and no sooner, and its fields decode to it.
#[test]
fn every_value_repeats_after_its_element() {
    let mut found = [0, 0];
    for length in [2, 4, 8, 16, 32, 64] {
        let (n, prefix) = (u32::from(length == 64), (128 - 2 * length) % 64);
        for ones in 1..length {
            let set = (0..64).filter(|bit| bit % length < ones);
            let unturned: u64 = set.map(|bit| 1 << bit).sum();
            for r in 0..length {
                let value = unturned.rotate_right(r);
                let repeats = (1..=64).find(|turn| value.rotate_right(*turn) == value);
                assert_eq!(repeats, Some(length), "{value:x}");
                let expected = Fields { n, s: prefix + ones - 1, r, length };
                both_ways(value, 64, expected);
                found[0] += 1;
                if length <= 32 {
                    both_ways(value, 32, expected);
                    found[1] += 1;
                }
            }
        }
    }
    assert_eq!(found, [5334, 1302]);
}

/// The value has these fields, and they decode to its low bits, also with R any number of elements longer; normalised they are these.
fn both_ways(value: u64, width: u32, fields: Fields) {
    assert_eq!(logical_fields(value, width), Ok(fields), "{value:x}");
    let Fields { n, s, r, length } = fields;
    for r in (r..64).step_by(length as usize) {
        assert_eq!(asked::decode_logical(n, s, r, width), Ok(value & (u64::MAX >> (64 - width))));
        assert_eq!(asked::normalise_logical(n, s, r, width), Ok(fields));
    }
}

/// All fields of six bits and one: those that [`both_ways`] has not decoded are refused, and so are numbers beyond.
#[test]
fn illegal_fields_are_refused() {
    for (width, legal) in [(32, 57 * 64), (64, 57 * 64 + 63 * 64)] {
        let all = (0..2).flat_map(|n| (0..64).flat_map(move |s| (0..64).map(move |r| (n, s, r))));
        let mut decoded = 0;
        for (n, s, r) in all {
            let answer = asked::decode_logical(n, s, r, width);
            decoded += usize::from(answer.is_ok());
            let illegal = match n {
                0 => [31, 47, 55, 59, 61, 62, 63].contains(&s),
                _ => width == 32 || s == 63,
            };
            assert_eq!(answer.err(), illegal.then_some(Refusal::NoField), "{n} {s} {r}");
            let normal = asked::normalise_logical(n, s, r, width);
            assert_eq!(normal.err(), illegal.then_some(Refusal::NoField), "{n} {s} {r}");
        }
        assert_eq!(decoded, legal);
        for wild in [64, 65, 128, 256 + 7, 1 << 31, u32::MAX] {
            for (n, s, r) in [(2, 7, 0), (wild, 7, 0), (0, wild, 0), (0, 7, wild)] {
                assert_eq!(asked::decode_logical(n, s, r, width), Err(Refusal::NoField));
                assert_eq!(asked::normalise_logical(n, s, r, width), Err(Refusal::NoField));
            }
        }
    }
    for width in [0, 8, 16, 31, 33, 63, 65, 128, u32::MAX] {
        for n in [0, 2] {
            assert_eq!(asked::decode_logical(n, 7, 0, width), Err(Refusal::Width));
            assert_eq!(asked::normalise_logical(n, 7, 0, width), Err(Refusal::Width));
        }
    }
}

#[test]
fn logical_words() {
    let and = LogicalOp::And.number();
    at_every_place(&[0x92401C20], |run, at| logical_word(run, at, (and, 64, 1, 0), 0xFF));
    let word = |operation: LogicalOp, width, rn, rd, value| {
        let mut run = [0; 4];
        logical_word(&mut run, START, (operation.number(), width, rn, rd), value)
            .map(|_| word_at(&run, 0))
    };
    assert_eq!(word(LogicalOp::Orr, 32, 31, 31, 0x1_0000_00FF), Ok(0x32001FFF));
    assert_eq!(word(LogicalOp::Eor, 64, 2, 3, 0x5555_5555_5555_5555), Ok(0xD200F043));
    assert_eq!(word(LogicalOp::Ands, 32, 0, 30, 0x80000000), Ok(0x7201001E));
    let wrong = [
        (Refusal::Unknown, (4, 16, 32, 0)),
        (Refusal::Unknown, (u32::MAX, 64, 1, 0)),
        (Refusal::Width, (and, 16, 32, 0)),
        (Refusal::Register, (and, 64, 32, 0)),
        (Refusal::Register, (and, 64, 1, 32)),
        (Refusal::Register, (and, 64, 63, 0)),
        (Refusal::NoField, (and, 64, 1, 0)),
    ];
    for (refusal, numbers) in wrong {
        refused(refusal, |run, at| logical_word(run, at, numbers, 0));
    }
}

/// Each format's base, step, least and greatest distance.
const FORMATS: [(u32, u32, i64, i64, i64); 6] = [
    (0, 0x14000000, 4, -134217728, 134217724),
    (1, 0x54000000, 4, -1048576, 1048572),
    (2, 0x36000000, 4, -32768, 32764),
    (3, 0x10000000, 1, -1048576, 1048575),
    (4, 0x90000000, 4096, -4294967296, 4294963200),
    (5, 0x58000000, 4, -1048576, 1048572),
];

/// All registers, in the order of their numbers.
#[rustfmt::skip]
const REGISTERS: [Reg; 32] = [
    Reg::X0, Reg::X1, Reg::X2, Reg::X3, Reg::X4, Reg::X5, Reg::X6, Reg::X7, Reg::X8, Reg::X9, Reg::X10,
    Reg::X11, Reg::X12, Reg::X13, Reg::X14, Reg::X15, Reg::X16, Reg::X17, Reg::X18, Reg::X19, Reg::X20,
    Reg::X21, Reg::X22, Reg::X23, Reg::X24, Reg::X25, Reg::X26, Reg::X27, Reg::X28, Reg::X29, Reg::X30,
    Reg::R31,
];

/// The numbers, steps and ranges of the types are those of the entries.
#[test]
fn types_have_the_entries_numbers() {
    for ((number, _, step, least, greatest), format) in FORMATS.into_iter().zip(Format::ALL) {
        assert_eq!((format.number(), format.step()), (number, step));
        assert_eq!(format.range(), least..=greatest);
        assert_eq!(Format::from_number(number), Some(format));
    }
    for (number, operation) in (0..).zip(LogicalOp::ALL) {
        assert_eq!(operation.number(), number);
        assert_eq!(LogicalOp::from_number(number), Some(operation));
    }
    for (number, register) in (0..32).zip(REGISTERS) {
        assert_eq!((Reg::new(number), register.number()), (Some(register), number));
    }
    assert_eq!([Width::W32, Width::W64].map(Width::bits), [32, 64]);
    for number in [32, 63, 64, 256, u32::MAX] {
        assert_eq!((Reg::new(number), Format::from_number(number)), (None, None));
        assert_eq!(LogicalOp::from_number(number), None);
    }
    assert_eq!((Format::from_number(6), LogicalOp::from_number(4)), (None, None));
    for bits in [0, 16, 31, 33, 63, 65, u32::MAX] {
        assert_eq!(Width::from_bits(bits), None);
    }
}

#[test]
fn displacements() {
    at_every_place(&[0x17FFFFFF], |run, at| displacement(run, at, BRANCH_26, 0x14000000, -4));
    at_every_place(&[0x30000020], |run, at| displacement(run, at, ADR_21, 0x10000000, 5));
    at_every_place(&[0x58000040], |run, at| to(run, at, LDR_19, 0x58000000, 8));
    for distance in [0x2000, 0x2004, 0x2FFF] {
        at_every_place(&[0xD0000000], |run, at| to(run, at, ADRP_21, 0x90000000, distance));
    }
    for (format, base, step, least, greatest) in FORMATS {
        for distance in [least, least + step, -step, 0, step, greatest - step, greatest] {
            let mut run = [0; 4];
            displacement(&mut run, START, format, base, distance).unwrap();
            assert_eq!(asked::read_displacement(word_at(&run, 0), format), Ok(distance));
            for base_address in [0, 0x7FFF_FFFF_FFFF_FFF8, 0xFFFF_FFFF_FFFF_F000, LAST] {
                let mut again = [0; 4];
                to(&mut again, place(base_address, 0), format, base, distance).unwrap();
                assert_eq!(again, run);
            }
        }
    }
}

#[test]
fn displacements_are_refused_in_order() {
    for (format, base, step, least, greatest) in FORMATS {
        for distance in [least - step, greatest + step, i64::MIN] {
            refused(Refusal::Range, |run, at| displacement(run, at, format, base, distance));
            refused(Refusal::Range, |run, at| to(run, at, format, base, distance));
        }
        if step > 1 {
            for distance in [1, step - 1, greatest + 1, i64::MAX] {
                refused(Refusal::Step, |run, at| displacement(run, at, format, base, distance));
                if format != ADRP_21 {
                    refused(Refusal::Step, |run, at| to(run, at, format, base, distance));
                }
            }
        }
        let taken = base + if format == BRANCH_26 { 1 } else { 1 << 5 };
        refused(Refusal::Taken, |run, at| displacement(run, at, format, taken, i64::MAX));
        refused(Refusal::Taken, |run, at| to(run, at, format, taken, i64::MAX));
    }
    for format in [6, 7, u32::MAX] {
        refused(Refusal::Unknown, |run, at| displacement(run, at, format, u32::MAX, 1));
        refused(Refusal::Unknown, |run, at| to(run, at, format, u32::MAX, 1));
        assert_eq!(asked::read_displacement(0, format), Err(Refusal::Unknown));
        assert_eq!(asked::has_form(format, 0x14000000), Err(Refusal::Unknown));
    }
}

/// The address of a word, also of one that no run has: its position is as great as a number can be.
#[test]
fn addresses_count_modulo_2_to_64() {
    assert_eq!(Place::at(Address(0x1000)), place(0x1000, 0));
    assert_eq!(place(0x1000, 2).address(), Address(0x1008));
    assert_eq!(place(LAST, 1).address(), Address(0));
    assert_eq!(place(0x1000, 1 << 62).address(), Address(0x1000));
    for base in ALIGNED.into_iter().chain(UNALIGNED) {
        for position in [0, 1, 2, usize::MAX / 4, 1 << 62, usize::MAX / 2, usize::MAX] {
            let at = place(base, position);
            assert_eq!(at.address(), Address(address(at)));
        }
    }
}

/// One target from places that are not at one address, and from one address by different places; by a word that stands there with
/// another distance too.
#[test]
fn a_target_counts_from_the_address_of_the_place() {
    let branch = |at: Place, target| {
        let mut run = [0; 16];
        let answer = displacement_to(&mut run, at, BRANCH_26, 0x14000000, target);
        if let Some(word) = words(&run).nth(at.position.0) {
            let mut again = [0x17FFFFFF_u32.to_le_bytes(); 4].concat();
            assert_eq!(retarget_to(&mut again, at, BRANCH_26, target), answer);
            assert_eq!(word_at(&again, at.position.0), word);
        }
        answer.map(|_| word_at(&run, at.position.0))
    };
    assert_eq!(branch(place(0x1000, 2), 0x1000), Ok(0x17FFFFFE));
    assert_eq!(branch(place(0x1004, 1), 0x1000), Ok(0x17FFFFFE));
    assert_eq!(branch(place(0x1000, 1), 0x1000), Ok(0x17FFFFFF));
    assert_eq!(branch(place(0x1000, 0), 0x1000), Ok(0x14000000));
    // Around 2^64, both ways.
    assert_eq!(branch(place(LAST, 0), 0), Ok(0x14000001));
    assert_eq!(branch(place(LAST, 1), 0), Ok(0x14000000));
    assert_eq!(branch(place(LAST, 1), LAST), Ok(0x17FFFFFF));
    assert_eq!(branch(place(LAST - 4, 3), 0x24), Ok(0x14000008));
    // Past the end of the run there is an address too: 5 comes before 8.
    assert_eq!(branch(place(0x1000, 4), 0x1010 + 134217728), Err(Refusal::Range));
    assert_eq!(branch(place(0x1000, 4), 0x1010 + 134217724), Err(Refusal::NoRoom));
    assert_eq!(branch(place(0x1000, 1 << 62), 0x1000), Err(Refusal::NoRoom));
    assert_eq!(branch(place(0, usize::MAX), 134217720), Err(Refusal::NoRoom));
    assert_eq!(branch(place(0, usize::MAX), 134217724), Err(Refusal::Range));
}

/// An ADRP to every place of a page, at both ends of the range: the word of the page, and the place; a page farther, 5. The same where
/// an ADRP stands that went elsewhere.
#[test]
fn an_adrp_goes_to_any_target() {
    let (adrp, ends) = (0x9000001E, [(-4294967296, -4096), (4294963200, 4096), (0, 0)]);
    let old = [0xF0FFFFFE_u32.to_le_bytes(); 4].concat();
    // The second word of a run, at the addresses 0, 1000, 1FFC, 2^63 and the last one.
    let bases = [LAST, 0xFFC, 0x1FF8, (1 << 63) - 4, LAST - 4];
    for (base, (end, more)) in bases.into_iter().zip(ends.into_iter().cycle()) {
        let mut expected = [0; 8];
        displacement(&mut expected, place(0, 1), ADRP_21, adrp, end).unwrap();
        for low in 0..4096 {
            let mut run = [0; 8];
            to(&mut run, place(base, 1), ADRP_21, adrp, end + low).unwrap();
            assert_eq!(run, expected);
            let mut again = old.clone();
            again_to(&mut again, place(base, 1), ADRP_21, end + low).unwrap();
            assert_eq!(again, [&old[..4], &expected[4..], &old[8..]].concat());
        }
        for low in [0, 1, 0xFFF].into_iter().filter(|_| more != 0) {
            refused(Refusal::Range, |run, at| to(run, at, ADRP_21, adrp, end + more + low));
            refused_in(&old, 1, Refusal::Range, |run, at| {
                again_to(run, at, ADRP_21, end + more + low)
            });
        }
    }
}

/// Every instruction that has a displacement, its field clear, by format.
const INSTRUCTIONS: [&[u32]; 6] = [
    &[0x14000000, 0x94000000],
    &[0x5400000D, 0x34000005, 0x35000005, 0xB4000005, 0xB500001F],
    &[0x36000000, 0x37F8001F, 0xB6080001, 0xB7000002],
    &[0x1000001F],
    &[0x9000001F],
    &[0x18000001, 0x58000002, 0x98000003, 0xD8000004, 0x1C000005, 0x5C000006, 0x9C00001F],
];

/// The bits of each format's field.
const FIELDS: [u32; 6] = [0x03FFFFFF, 0x00FFFFE0, 0x0007FFE0, 0x60FFFFE0, 0x60FFFFE0, 0x00FFFFE0];

/// A run in which a word stands at each of four positions, and a tail.
fn standing(word: u32) -> Vec<u8> {
    let bytes = word.to_le_bytes();
    [&bytes, &bytes, &bytes, &bytes, &[0xEE; 3][..]].concat()
}

#[test]
fn an_instruction_is_a_base_at_its_own_format_only() {
    for (own, bases) in (0..).zip(INSTRUCTIONS) {
        for base in bases.iter().copied() {
            for format in 0..6 {
                let said = asked::has_form(format, base);
                assert_eq!(said, Ok(format == own), "{base:08x} at {format}");
                if format != own {
                    wrong_form(format, base, i64::MAX);
                }
            }
            at_every_place(&[base], |run, at| displacement(run, at, own, base, 0));
        }
    }
}

/// 11 to a word as a base, and where it stands already.
fn wrong_form(format: u32, word: u32, distance: i64) {
    refused(Refusal::WrongForm, |run, at| displacement(run, at, format, word, distance));
    refused(Refusal::WrongForm, |run, at| to(run, at, format, word, distance));
    for position in [0, 3] {
        refused_in(&standing(word), position, Refusal::WrongForm, |run, at| {
            retarget(run, at, format, distance)
        });
        refused_in(&standing(word), position, Refusal::WrongForm, |run, at| {
            again_to(run, at, format, distance)
        });
    }
}

/// The bits that tell the instructions of a format: in the top byte, and bit 4 of a B.cond.
#[test]
fn a_fixed_bit_turned_over_is_another_instruction() {
    let bits = [0x7C000000, 0xFF000010, 0x7E000000, 0x9F000000, 0x9F000000, 0x3B000000];
    for ((format, bases), fixed) in (0..).zip(INSTRUCTIONS).zip(bits) {
        for bit in (0..32).map(|bit| 1 << bit).filter(|bit| fixed & bit != 0) {
            let word = bases[0] ^ bit;
            assert_eq!(asked::has_form(format, word), Ok(false), "{word:08x} at {format}");
            wrong_form(format, word, 0);
        }
    }
    for (format, word) in [(5, 0xDC000000), (1, 0x54000010), (1, 0x55000000), (0, 0), (5, u32::MAX)]
    {
        assert_eq!(asked::has_form(format, word), Ok(false));
        wrong_form(format, word, 1);
    }
}

/// A word that was written is an instruction of its format, and taken for a base whose field is set; where it stands, it is given
/// another distance.
#[test]
fn what_is_written_is_of_the_form_of_its_base() {
    for ((format, _, step, least, _), bases) in FORMATS.into_iter().zip(INSTRUCTIONS) {
        for base in bases.iter().copied() {
            for distance in [least, -step, step] {
                let mut run = [0; 4];
                displacement(&mut run, START, format, base, distance).unwrap();
                let word = word_at(&run, 0);
                assert_eq!(asked::has_form(format, word), Ok(true));
                refused(Refusal::Taken, |run, at| displacement(run, at, format, word, distance));
                retarget(&mut run, START, format, 0).unwrap();
                assert_eq!(word_at(&run, 0), base);
            }
        }
    }
}

/// Every instruction, with each of several things in its field, gets the word that its base gets, at every place.
#[test]
fn a_word_that_stands_is_retargeted() {
    for ((format, _, step, least, greatest), (bases, field)) in
        FORMATS.into_iter().zip(INSTRUCTIONS.into_iter().zip(FIELDS))
    {
        for base in bases.iter().copied() {
            for distance in [least, -step, 0, greatest] {
                let mut expected = [0; 4];
                displacement(&mut expected, START, format, base, distance).unwrap();
                let expected = word_at(&expected, 0);
                for held in [0, field, 0xAAAAAAAA & field, 0x55555555 & field] {
                    let mut run = standing(base | held);
                    let end = retarget(&mut run, place(0x1000, 2), format, distance);
                    assert_eq!(end, Ok(place(0x1000, 3)));
                    let mut after = standing(base | held);
                    after[8..12].copy_from_slice(&expected.to_le_bytes());
                    assert_eq!(run, after);
                    let mut run = standing(base | held);
                    again_to(&mut run, place(0x1000, 2), format, distance).unwrap();
                    assert_eq!(run, after);
                }
            }
        }
    }
    let branch = Some(0x97FFFFFF);
    over_every_place(branch, &[0x94000002], |run, at| retarget(run, at, BRANCH_26, 8));
    over_every_place(branch, &[0x94000002], |run, at| again_to(run, at, BRANCH_26, 8));
    let adrp = Some(0xF0FFFFE7);
    over_every_place(adrp, &[0xD0000007], |run, at| retarget(run, at, ADRP_21, 0x2000));
    over_every_place(adrp, &[0xD0000007], |run, at| again_to(run, at, ADRP_21, 0x2ABC));
}

#[test]
fn retargets_are_refused_in_order() {
    for (format, base, step, least, greatest) in FORMATS {
        let run = standing(base | (1 << 5));
        let by = |position, distance, refusal| {
            refused_in(&run, position, refusal, |run, at| retarget(run, at, format, distance));
        };
        let to = |position, distance, refusal| {
            refused_in(&run, position, refusal, |run, at| again_to(run, at, format, distance));
        };
        for distance in [least - step, greatest + step, i64::MIN] {
            by(1, distance, Refusal::Range);
            to(1, distance, Refusal::Range);
        }
        for distance in [1, step - 1, greatest + 1, i64::MAX].into_iter().filter(|_| step > 1) {
            by(3, distance, Refusal::Step);
            if format != ADRP_21 {
                to(3, distance, Refusal::Step);
            }
        }
        // No whole word there, whatever else is wrong.
        for position in [4, 5, usize::MAX / 4, usize::MAX] {
            for distance in [0, 1, i64::MIN] {
                by(position, distance, Refusal::NoRoom);
                to(position, distance, Refusal::NoRoom);
            }
        }
    }
    for format in [6, 7, u32::MAX] {
        for position in [0, 3, 4, usize::MAX] {
            let run = standing(0);
            refused_in(&run, position, Refusal::Unknown, |run, at| retarget(run, at, format, 1));
            refused_in(&run, position, Refusal::Unknown, |run, at| again_to(run, at, format, 1));
        }
    }
}

/// The bits that an 8-bit float expands to: Arm's VFPExpandImm, from a value that every width has.
fn expanded(imm8: u8) -> f32 {
    let [sign, power] = [imm8 >> 7 & 1, imm8 >> 4 & 7].map(i32::from);
    let exponent = if power < 4 { power + 1 } else { power - 7 };
    let size = (1.0 + f32::from(imm8 & 15) / 16.0) * 2_f32.powi(exponent);
    if sign == 1 {
        -size
    } else {
        size
    }
}

/// The bits at width 16 of a float that has them.
fn half(value: f32) -> u32 {
    let bits = value.to_bits();
    (bits >> 16 & 0x8000) | (((bits >> 23 & 0xFF) - 112) << 10) | (bits >> 13 & 0x3FF)
}

/// A float's 8 bits, where the test of them, and the typed functions of both, say the same.
fn float(value: u64, width: u32) -> Result<u8, Refusal> {
    let low = value as u32;
    let (typed, is) = match width {
        16 => (vaimalofo::encode_fp16_to_imm8(low), vaimalofo::is_fp16_imm8(low)),
        32 => (vaimalofo::encode_fp32_to_imm8(low), vaimalofo::is_fp32_imm8(low)),
        _ => (vaimalofo::encode_fp64_to_imm8(value), vaimalofo::is_fp64_imm8(value)),
    };
    let answer = asked::agreed(typed, raw::float_imm8(value, width));
    assert_eq!(raw::is_float_imm8(value, width), Ok(answer.is_ok()));
    assert_eq!(is, answer.is_ok());
    answer
}

#[test]
fn floats() {
    for imm8 in 0..=u8::MAX {
        let value = expanded(imm8);
        let double = f64::from(value).to_bits();
        let bits = [(16, half(value).into()), (32, value.to_bits().into()), (64, double)];
        for (width, bits) in bits {
            assert_eq!(float(bits, width), Ok(imm8), "{value}");
            // Bits above the width do not count, and every lower one does.
            for bit in 0..64 {
                let near = float(bits ^ (1 << bit), width);
                let same = (near == Ok(imm8)) == (bit >= width);
                assert!(same, "{value}, bit {bit} at {width}");
            }
        }
    }
    let halves = (0..=0xFFFF).filter(|bits| float(*bits, 16).is_ok()).count();
    assert_eq!(halves, 256);
    let infinite = f64::INFINITY.to_bits();
    for value in [0.0, -0.0, 0.1, 0.12, 31.5, 32.0, f64::NAN, f64::MAX, f64::MIN_POSITIVE] {
        assert_eq!(float(value.to_bits(), 64), Err(Refusal::NoField), "{value}");
        assert_eq!(float((value as f32).to_bits().into(), 32), Err(Refusal::NoField), "{value}");
    }
    assert_eq!(float(infinite, 64), Err(Refusal::NoField));
    for width in [0, 1, 8, 15, 17, 31, 33, 63, 65, 128, u32::MAX] {
        for value in [0, 1.0_f64.to_bits()] {
            assert_eq!(raw::float_imm8(value, width), Err(Refusal::Width));
            assert_eq!(raw::is_float_imm8(value, width), Err(Refusal::Width));
        }
    }
}

#[test]
fn byte_masks() {
    let encode = |value| {
        let typed = vaimalofo::encode_byte_mask_to_imm8(value);
        let answer = asked::agreed(typed, raw::byte_mask_imm8(value));
        assert_eq!(vaimalofo::is_byte_mask_imm(value), answer.is_ok());
        answer
    };
    for mask in 0..=u8::MAX {
        let bytes = (0..8).map(|bit| if mask >> bit & 1 == 1 { 0xFF_u64 << (8 * bit) } else { 0 });
        let value = bytes.sum();
        assert_eq!(encode(value), Ok(mask));
        for bit in 0..64 {
            assert_eq!(encode(value ^ (1 << bit)), Err(Refusal::NoField));
        }
    }
}

#[test]
fn ids_and_conditions() {
    for id in (0..70).chain([255, 256, 1 << 31, u32::MAX]) {
        for high in [0, 30, 31, 32, 63, u32::MAX] {
            let passes = id < 31 || id == high;
            assert_eq!(vaimalofo::check_gp_id(id, high), passes, "{id}, {high}");
            assert_eq!(raw::check_gp_id(id, high), passes, "{id}, {high}");
        }
        assert_eq!(vaimalofo::check_vec_id(id), id < 32);
        assert_eq!(raw::check_vec_id(id), id < 32);
        let field = (u64::from(id) + 14) % 16;
        assert_eq!(u64::from(vaimalofo::cond_code_to_opcode_field(id)), field);
        assert_eq!(u64::from(raw::cond_field(id)), field);
    }
}

#[test]
fn words_leave_the_tail_out() {
    let bytes = [1, 2, 3, 4, 5, 6, 7, 8, 9, 10, 11];
    for (length, whole) in [(0, 0), (3, 0), (4, 1), (7, 1), (8, 2), (11, 2)] {
        let mut run = words(&bytes[..length]);
        assert_eq!(run.len(), whole);
        assert_eq!(run.clone().count(), whole);
        assert!(run.clone().eq([0x04030201, 0x08070605].into_iter().take(whole)));
        assert_eq!(run.nth(usize::MAX), None);
    }
    assert!(words(&bytes).rev().eq([0x08070605, 0x04030201]));
}

#[test]
fn refusals_print_in_words() {
    let all = || Refusal::ALL.iter().copied();
    let numbers: Vec<u8> = all().map(Refusal::number).collect();
    assert!(numbers.into_iter().eq(1..=16));
    for number in 0..=u8::MAX {
        let found = all().find(|refusal| refusal.number() == number);
        assert_eq!(Refusal::from_number(number), found);
    }
    for refusal in all() {
        assert!(refusal.to_string().starts_with(&format!("refusal {}: ", refusal.number())));
    }
    let error: Box<dyn std::error::Error> = Box::new(Refusal::NoRoom);
    assert_eq!(
        error.to_string(),
        "refusal 8: the words do not fit from the position on, or the position lies past the end"
    );
    assert_eq!(
        Refusal::Unaligned.to_string(),
        "refusal 15: the base address is not a multiple of 4"
    );
}

/// Each error has its number, and prints so.
fn say<const N: usize>(errors: [(Error, u8, &str); N]) {
    for (error, number, text) in errors {
        assert_eq!((error.number(), error.refusal().number()), (number, number));
        let error: Box<dyn std::error::Error + Send + Sync> = Box::new(error);
        assert_eq!(error.to_string(), text);
    }
}

#[test]
fn errors_name_operand_and_limit() {
    use vaimalofo::{mov, patchable_mov};
    let (run, end, odd) = (&mut [0; 15], place(0x1000, 3), place(0x1001, 0));
    let none = "register 31 is none of a move, which takes 0 to 30";
    say([
        (mov(run, START, 1, Reg::R31).unwrap_err(), 2, none),
        (patchable_mov(run, START, 1, Width::W32, Reg::R31).unwrap_err(), 2, none),
        (mov(run, odd, 1, Reg::R31).unwrap_err(), 15, "base address 0x1001 is not a multiple of 4"),
        (mov(run, end, 1, Reg::X0).unwrap_err(), 8, "no room at position 3 of a run of 3 words"),
        (
            patchable_mov(&mut [0; 4], START, 1, Width::W32, Reg::X0).unwrap_err(),
            8,
            "no room at position 0 of a run of 1 word",
        ),
    ]);
}

#[test]
fn errors_of_immediates_name_the_value() {
    use vaimalofo::{decode_logical, encode_byte_mask_to_imm8, encode_fp16_to_imm8};
    use vaimalofo::{encode_fp32_to_imm8, encode_fp64_to_imm8, logical_fields, logical_word};
    use Width::{W32, W64};
    let and = Logical { operation: LogicalOp::And, width: W64, rn: Reg::X1, rd: Reg::R31 };
    let (word, fields) = (
        logical_word(&mut [0; 4], START, and, 0x1234).unwrap_err(),
        logical_fields(u64::MAX, W32).unwrap_err(),
    );
    let normal = vaimalofo::normalise_logical(0, 63, 0, W64).unwrap_err();
    let mask = encode_byte_mask_to_imm8(0xFE).unwrap_err();
    say([
        (word, 3, "0x1234 is no logical immediate at width 64"),
        (fields, 3, "0xffffffffffffffff is no logical immediate at width 32"),
        (decode_logical(1, 7, 40, W32).unwrap_err(), 3, "N 1, S 7, R 40 are no fields of width 32"),
        (normal, 3, "N 0, S 63, R 0 are no fields of width 64"),
        (encode_fp16_to_imm8(1).unwrap_err(), 3, "0x1 is no 8-bit float at width 16"),
        (encode_fp32_to_imm8(2).unwrap_err(), 3, "0x2 is no 8-bit float at width 32"),
        (encode_fp64_to_imm8(3).unwrap_err(), 3, "0x3 is no 8-bit float at width 64"),
        (mask, 3, "0xfe is no byte mask, whose bytes are 00 or FF"),
    ]);
}

/// The distance of a target is that from the instruction, for ADRP from page to page.
#[test]
fn errors_of_distances_name_the_instructions() {
    let by = |format, base, distance| {
        vaimalofo::displacement(&mut [0; 4], START, format, base, ByteDistance(distance))
            .unwrap_err()
    };
    let to = |at, format, base, target| {
        vaimalofo::displacement_to(&mut [0; 8], at, format, base, Address(target)).unwrap_err()
    };
    let (second, last) = (place(0x1000, 1), place(LAST, 0));
    let taken = "word 0x54000020 has bits set in the field of B.cond, CBZ and CBNZ";
    let tbz = "distance 40000 is outside -32768..=32764 of TBZ and TBNZ";
    let b = "distance 6 is not a multiple of 4, the step of B and BL";
    let adr = "distance 1048576 is outside -1048576..=1048575 of ADR";
    let adrp = "distance 4294967296 is outside -4294967296..=4294963200 of ADRP";
    let ldr = "distance 5 is not a multiple of 4, the step of LDR, LDRSW and PRFM (literal)";
    say([
        (by(Format::Branch14, 0x36000000, 40000), 5, tbz),
        (by(Format::Branch26, 0x14000000, 6), 4, b),
        (by(Format::Branch26, 0x10000000, 6), 11, "word 0x10000000 is no B or BL"),
        (by(Format::Branch19, 0x54000020, 6), 6, taken),
        (to(second, Format::Adr21, 0x10000000, 0x1004 + 1048576), 5, adr),
        (to(second, Format::Adrp21, 0x90000000, 0x1_0000_1234), 5, adrp),
        (to(last, Format::Ldr19, 0x58000000, 1), 4, ldr),
    ]);
}

/// A retarget's error is about the word that stands there.
#[test]
fn errors_of_retargets_name_the_word() {
    let cond = 0x5400000D;
    let by = |format, distance| {
        vaimalofo::retarget(&mut standing(cond), place(0, 2), format, ByteDistance(distance))
            .unwrap_err()
    };
    let to = |at| {
        vaimalofo::retarget_to(&mut standing(cond), at, Format::Branch19, Address(0x1002))
            .unwrap_err()
    };
    let far = "distance -1048580 is outside -1048576..=1048572 of B.cond, CBZ and CBNZ";
    let off = "distance -6 is not a multiple of 4, the step of B.cond, CBZ and CBNZ";
    say([
        (by(Format::Ldr19, 1), 11, "word 0x5400000d is no LDR, LDRSW or PRFM (literal)"),
        (by(Format::Branch14, 1), 11, "word 0x5400000d is no TBZ or TBNZ"),
        (by(Format::Branch19, -1048580), 5, far),
        (to(place(0x1000, 2)), 4, off),
        (to(place(0x1000, 4)), 8, "no room at position 4 of a run of 4 words"),
        (to(place(0x1003, 4)), 15, "base address 0x1003 is not a multiple of 4"),
    ]);
}
