//! Runs of words read back, through the C entries beside the model: every word alone in its run and written again, runs of wide moves and
//! other words, and what the entries that write have written. The Rust has no reader.

use oracle::document::displacements::FORMATS;
use oracle::document::logical::encode_logical_imm;
use oracle::document::reader::{read_at, rewrite, Item, Logical};
use oracle::document::{words, No};
use oracle::lists::random::Random;
use vaimalofo::{raw, Address, Place, Refusal, WordPos};

use crate::parts::{number, own_base, random, target, Slice};
use crate::plain_reader::{CONSTANT, DISPLACEMENT, END, LOGICAL, LONE_MOVK, NUMBERS, UNKNOWN};
use crate::retargets::any_field;
use crate::tally::Tally;
use crate::values;
use crate::work::Part;

type Read = fn(&[u32], usize, &mut [u64]) -> Result<u64, Refusal>;
type Rewrite = fn(u32) -> u32;

/// The two entries of a program that reads.
#[derive(Clone, Copy)]
pub struct Entries {
    pub read: Read,
    pub rewrite: Rewrite,
}

pub const C_ENTRIES: Entries = Entries { read: raw::read, rewrite: raw::rewrite };

/// Numbers of which some are lent: one before them, and those behind, nothing may touch.
const ALL: usize = 1 + NUMBERS + 3;

/// What the numbers are before a call: no two are alike, and no answer has one of them.
fn unwritten() -> [u64; ALL] {
    std::array::from_fn(|i| 0x3C3C_3C3C_3C00_0000 + i as u64)
}

/// A call: a run, a position, and how many numbers are lent.
#[derive(Clone, Copy, Debug)]
struct Call<'a> {
    run: &'a [u32],
    position: usize,
    lent: usize,
}

/// The kind, or a refusal; and all numbers after the call.
type Answer = (Result<u64, No>, [u64; ALL]);

/// An item and the position behind it, or the end; or a refusal.
type Found = Result<Option<(Item, u64)>, No>;

impl Call<'_> {
    fn of_program(self, read: Read) -> Answer {
        let mut numbers = unwritten();
        let said = read(self.run, self.position, &mut numbers[1..1 + self.lent]);
        (said.map_err(number), numbers)
    }

    /// What the model finds. Refusal 8 also where the numbers are too few.
    fn of_model(self) -> Found {
        match self.lent {
            0..NUMBERS => Err(No(8)),
            _ => read_at(self.run, self.position as u64),
        }
    }

    /// A call of both; the position behind the model's item.
    fn check(self, read: Read, tally: &mut Tally) -> Option<usize> {
        let found = self.of_model();
        tally.answers(name(&found), found.map_or_else(|No(number)| number, |_| 0));
        self.holds(read, &found, tally);
        Some(found.ok()??.1 as usize)
    }

    /// Holds the program to what must be found.
    fn holds(self, read: Read, found: &Found, tally: &mut Tally) {
        let answer = self.of_program(read);
        match answer == spelled(found) {
            true => tally.alone += 1,
            false => tally.fails(|| format!("{self:x?}: {answer:x?}, document 02 {found:x?}")),
        }
    }
}

/// The name under which an answer is counted.
fn name(found: &Found) -> &'static str {
    match found {
        Ok(Some((Item::Constant { .. }, _))) => "a constant",
        Ok(Some((Item::LoneMovk { .. }, _))) => "a lone MOVK",
        Ok(Some((Item::Logical(Logical { normal: true, .. }), _))) => "a logical immediate",
        Ok(Some((Item::Logical(_), _))) => "a logical immediate that is not normal",
        Ok(Some((Item::Displacement { .. }, _))) => "a displacement",
        Ok(Some((Item::Unknown { .. }, _))) => "an unknown word",
        Ok(None) => "the end",
        Err(_) => "a call",
    }
}

/// The answer that tells what was found: the kind, the position behind the item and its own numbers.
fn spelled(found: &Found) -> Answer {
    let mut numbers = unwritten();
    let said = found.map(|found| match found {
        Some((item, next)) => {
            numbers[1] = next;
            put_item(&item, &mut numbers[2..])
        }
        None => END,
    });
    (said, numbers)
}

/// An item's own numbers, and its kind.
fn put_item(item: &Item, numbers: &mut [u64]) -> u64 {
    fn put<const N: usize>(numbers: &mut [u64], given: [u32; N]) {
        numbers.iter_mut().zip(given).for_each(|(number, given)| *number = given.into());
    }
    match *item {
        Item::Constant { register, size, value, words } => {
            put(numbers, [register, size]);
            numbers[2..4].copy_from_slice(&[value, words]);
            CONSTANT
        }
        Item::LoneMovk { register, size, halfword, place } => {
            put(numbers, [register, size, halfword, place]);
            LONE_MOVK
        }
        Item::Logical(one) => {
            let Logical { operation, width, rn, rd, n, s, r, length, normal, .. } = one;
            put(numbers, [operation, width, rn, rd, 0, n, s, r, length, normal.into()]);
            numbers[4] = one.value;
            LOGICAL
        }
        Item::Displacement { format, base, distance } => {
            put(numbers, [format, base]);
            numbers[2] = distance as u64;
            DISPLACEMENT
        }
        Item::Unknown { word, position } => {
            put(numbers, [word]);
            numbers[1] = position;
            UNKNOWN
        }
    }
}

// ---- words

/// Lower bits below the top 12 of a word: none, a bit, registers 31, and others.
const LOWER: [u32; 16] = [
    0, 1, 0x10, 0x1F, 0x20, 0x3E0, 0x3FF, 0x400, 0xFC00, 0xFBFF, 0xF81F, 0x1_0000, 0x5_5555,
    0x8_0000, 0xF_FFE0, 0xF_FFFF,
];

/// How many words are asked in every slice: each top 12 bits with each of these, and all fields of logical words.
const TOPS: u64 = 4096 * LOWER.len() as u64;
const FIELDS: u64 = 1 << 16;

/// Every word, alone in its run, and written again. The kinds are counted of the slice's words.
pub fn all_words(slice: Slice, entries: Entries) -> Part {
    Part {
        name: "words",
        what: format!(
            "{} 2^32 words, each read alone in its run and written again; besides, every top 12 bits with {} lower ones, and all fields of logical words, also at wrong positions and with any count of numbers",
            slice.text(),
            LOWER.len()
        ),
        items: TOPS + FIELDS + slice.count(1 << 32),
        check: Box::new(move |i, tally| match i.checked_sub(TOPS + FIELDS) {
            Some(i) => check_word(&entries, slice.item(i) as u32, tally),
            None => check_always(&entries, i as u32, tally),
        }),
    }
}

fn check_word(entries: &Entries, word: u32, tally: &mut Tally) {
    Call { run: &[word], position: 0, lent: NUMBERS }.check(entries.read, tally);
    check_again(entries, word, tally);
}

fn check_again(entries: &Entries, word: u32, tally: &mut Tally) {
    let (again, document) = ((entries.rewrite)(word), rewrite(word));
    match again == document {
        true => tally.alone += 1,
        false => {
            tally.fails(|| format!("{word:08x} again: {again:08x}, document 02 {document:08x}"))
        }
    }
}

/// A word of every slice, at the end of its run too, past it, and with too few numbers or more.
fn check_always(entries: &Entries, i: u32, tally: &mut Tally) {
    let word = always(i);
    let position = [1, 2, 3, usize::MAX][i as usize % 4];
    let lent = i as usize / 4 % ALL;
    for (position, lent) in [(0, NUMBERS), (position, NUMBERS), (0, lent), (position, lent)] {
        let call = Call { run: &[word], position, lent };
        call.holds(entries.read, &call.of_model(), tally);
    }
    check_again(entries, word, tally);
}

/// A word that is asked in every slice.
fn always(i: u32) -> u32 {
    let lower = LOWER.len() as u32;
    match i.checked_sub(TOPS as u32) {
        None => (i / lower) << 20 | LOWER[(i % lower) as usize],
        // sf and opc, N with R and S, and registers that go with them.
        Some(fields) => {
            let registers = fields.wrapping_mul(0x9E37_79B1) >> 22;
            (fields >> 13) << 29 | 0b100100 << 23 | (fields & 0x1FFF) << 10 | registers
        }
    }
}

// ---- runs

/// Runs of wide moves and other words, read from the start to the end, and anywhere.
pub fn runs(count: u64, entries: Entries) -> Part {
    Part {
        name: "runs",
        what: format!("{count} runs of wide moves and other words, mostly of 1 to 12, each read on from every item's end, and at any position; more moves stand before and behind"),
        items: count,
        check: Box::new(move |i, tally| check_run(&entries, i, tally)),
    }
}

/// Words on each side of a run that no answer may come from.
const BESIDE: usize = 4;

fn check_run(entries: &Entries, item: u64, tally: &mut Tally) {
    let mut random = random(20, item);
    let r = &mut random;
    let (length, apart) = match item % 1024 {
        0 => (1 + r.below(5_000), 10_000),
        part if part % 32 == 1 => (1 + r.below(100), 64),
        _ => (1 + r.below(12), r.one_of(&[2, 4, 16])),
    };
    let length = length as usize;
    let all = mixed_words(length + 2 * BESIDE, apart, r);
    let run = &all[BESIDE..BESIDE + length];
    let mut position = 0;
    loop {
        let lent = NUMBERS + r.below(3) as usize;
        let next = Call { run, position, lent }.check(entries.read, tally);
        match next {
            Some(next) if position < next && next <= length => position = next,
            None if position == length => break,
            _ => return tally.fails(|| format!("{run:08x?}: from {position} on {next:?}")),
        }
    }
    for _ in 0..4 {
        let position = r.below(length as u64 + 2) as usize;
        let lent = NUMBERS - 1 + r.below(4) as usize;
        Call { run, position, lent }.check(entries.read, tally);
    }
}

/// A wide move with all its fields given, right or wrong.
pub fn wide(size: u32, opc: u32, place: u32, halfword: u32, register: u32) -> u32 {
    u32::from(size == 64) << 31
        | opc << 29
        | 0b100101 << 23
        | place << 21
        | halfword << 5
        | register
}

pub const MOVN: u32 = 0b00;
pub const MOVZ: u32 = 0b10;
pub const MOVK: u32 = 0b11;

/// Some 16 bits: often none or all.
pub fn any_half(r: &mut Random) -> u32 {
    match r.below(4) {
        0 => 0,
        1 => 0xFFFF,
        _ => r.value() as u32 & 0xFFFF,
    }
}

/// A place that there is at a size.
pub fn any_place(size: u32, r: &mut Random) -> u32 {
    r.below(u64::from(size) / 16) as u32
}

/// MOVKs at one size and register, and one time in `apart` another word, behind which these may be others.
fn mixed_words(count: usize, apart: u64, r: &mut Random) -> Vec<u32> {
    let (mut size, mut register) = (64, 1);
    (0..count)
        .map(|i| {
            // Most runs begin with a constant.
            let begins = i == BESIDE && r.below(8) > 0;
            if !begins && r.below(apart) > 0 {
                return wide(size, MOVK, any_place(size, r), any_half(r), register);
            }
            if r.below(2) == 0 {
                (size, register) = (r.one_of(&[32, 64]), r.below(31) as u32);
            }
            mixed_word(size, register, if begins { 0 } else { r.below(16) }, r)
        })
        .collect()
}

/// A MOVZ or MOVN at the size and register, or what is nearly a MOVK at these, or any word.
fn mixed_word(size: u32, register: u32, kind: u64, r: &mut Random) -> u32 {
    let (place, half) = (any_place(size, r), any_half(r));
    let other = (register + 1 + r.below(30) as u32) % 31;
    match kind {
        0..=5 => wide(size, r.one_of(&[MOVZ, MOVN]), place, half, register),
        6 => wide(size, MOVK, place, half, other),
        7 => wide(96 - size, MOVK, place % 2, half, register),
        8 => wide(32, MOVK, 2 + place % 2, half, register),
        9 => wide(size, r.below(4) as u32, place, half, 31),
        10 => wide(size, 0b01, place, half, register),
        11 => wide(size, r.below(4) as u32, r.below(4) as u32, half, register),
        12 => group(0b100100, r),
        13 => displaced_word(r),
        _ => r.value() as u32,
    }
}

/// A word of a group of immediates, by its bits 28 to 23, with any fields.
pub fn group(bits: u32, r: &mut Random) -> u32 {
    r.value() as u32 & !(0b111111 << 23) | bits << 23
}

/// A displacement with anything in its field.
pub fn displaced_word(r: &mut Random) -> u32 {
    let format = r.below(6) as usize;
    let base = own_base(format, r);
    any_field(format, base, r)
}

// ---- what was written

/// What the entries write, one behind the other, read back.
pub fn written(count: u64, entries: Entries) -> Part {
    Part {
        name: "written",
        what: format!("{count} runs of up to 8 moves, patchable moves, logical words and displacements that the entries have written, read back as what was asked; behind them nothing, or a word that is no more of the last"),
        items: count,
        check: Box::new(move |i, tally| check_written(&entries, i, tally)),
    }
}

fn check_written(entries: &Entries, item: u64, tally: &mut Tally) {
    let mut random = random(21, item);
    let r = &mut random;
    let (mut bytes, mut asked) = ([0; 4 * 33], vec![]);
    let base = r.value() >> r.one_of(&[0, 32]) & !3;
    let mut at = Place { base: Address(base), position: WordPos(0) };
    for k in 0..1 + r.below(8) {
        let (item, end) = write(&mut bytes, at, item + k, r);
        asked.push((at.position.0, item, end.position.0 as u64));
        at = end;
    }
    let mut run = crate::words(&bytes[..4 * at.position.0]);
    run.extend(behind(&run, r));
    for (position, item, next) in asked {
        let found = Ok(Some((item, next)));
        Call { run: &run, position, lent: NUMBERS }.holds(entries.read, &found, tally);
    }
}

/// A word that no move before it takes in, or none: a MOVK at another register or size than the last word has, a new constant at these,
/// or one that is no wide move.
pub fn behind(run: &[u32], r: &mut Random) -> Option<u32> {
    let last = run.last()?;
    let (size, register) = (32 << (last >> 31), last & 31);
    let (half, place) = (any_half(r), r.below(2) as u32);
    let other = (register + 1 + r.below(29) as u32) % 31;
    match r.below(6) {
        0 => None,
        1 => Some(wide(size, MOVK, place, half, other)),
        2 => Some(wide(96 - size, MOVK, place, half, register)),
        3 => Some(wide(size, MOVZ, place, half, register)),
        4 => Some(wide(32, MOVK, 2 + place, half, register)),
        _ => Some(displaced_word(r)),
    }
}

/// Writes something at a place by one of the entries: the item that it must be read as, and the place behind it.
fn write(bytes: &mut [u8], at: Place, kind: u64, r: &mut Random) -> (Item, Place) {
    let of_kind = r.below(8);
    let value = values::mixed(r, of_kind);
    let register = r.below(31) as u32;
    match kind % 5 {
        0 => {
            let end = raw::mov(bytes, at, value, register).expect("the register is below 31");
            let first = crate::words(&bytes[4 * at.position.0..])[0];
            let words = (end.position.0 - at.position.0) as u64;
            (Item::Constant { register, size: 32 << (first >> 31), value, words }, end)
        }
        1 => {
            let size = r.one_of(&[32, 64]);
            let value = value & u64::MAX >> (64 - size);
            let end =
                raw::patchable_mov(bytes, at, value, size, register).expect("the size is right");
            (Item::Constant { register, size, value, words: u64::from(size) / 16 }, end)
        }
        2 => logical_word(bytes, at, r),
        _ => displacement(bytes, at, kind % 5 == 3, r),
    }
}

fn logical_word(bytes: &mut [u8], at: Place, r: &mut Random) -> (Item, Place) {
    let [operation, rn, rd] = [4, 32, 32].map(|n| r.below(n) as u32);
    let (width, value) = loop {
        let (width, value) = (r.one_of(&[32, 64]), values::mask(r));
        if encode_logical_imm(value, width).is_ok() {
            break (width, value);
        }
    };
    let end = raw::logical_word(bytes, at, operation, value, width, rn, rd).expect("a mask");
    let [n, s, turn, length] = encode_logical_imm(value, width).expect("a mask");
    let value = value & u64::MAX >> (64 - width);
    let one = Logical { operation, width, rn, rd, value, n, s, r: turn, length, normal: true };
    (Item::Logical(one), end)
}

/// In range, by distance or by target.
fn displacement(bytes: &mut [u8], at: Place, by_target: bool, r: &mut Random) -> (Item, Place) {
    let format = r.below(6) as usize;
    let (number, row, base) = (format as u32, &FORMATS[format], own_base(format, r));
    let steps = (row.greatest - row.least) / row.step + 1;
    let distance = row.least + row.step * r.below(steps as u64) as i64;
    let end = match by_target {
        false => raw::displacement(bytes, at, number, base, distance),
        true => {
            let place = words::Place { base: at.base.0, position: at.position.0 as u64 };
            let target = target(format, distance, place, r);
            raw::displacement_to(bytes, at, number, base, target).map(|to| to.place)
        }
    };
    let end = end.expect("the base is the format's, and the distance in range");
    (Item::Displacement { format: number, base, distance }, end)
}

#[cfg(test)]
mod tests {
    use super::*;
    use crate::plain_reader as plain;

    const PLAIN: Entries = Entries { read: plain::read, rewrite: plain::rewrite };

    /// What all parts find, in a small slice.
    fn found(entries: Entries) -> Tally {
        let mut tally = Tally::default();
        let slice = Slice { rest: 41, by: 65_537 };
        for part in [all_words(slice, entries), runs(2_100, entries), written(2_100, entries)] {
            (0..part.items).for_each(|item| (part.check)(item, &mut tally));
        }
        tally
    }

    fn is_found_out(read: Read) {
        assert!(found(Entries { read, ..PLAIN }).failed > 0);
    }

    /// A right program passes, and comes to every kind of answer.
    #[test]
    fn a_right_program() {
        let tally = found(PLAIN);
        assert_eq!((tally.failed, &tally.failures), (0, &vec![]));
        let names: Vec<_> = tally.answers.keys().copied().collect();
        let kinds = [
            ("a call", 8),
            ("a constant", 0),
            ("a displacement", 0),
            ("a logical immediate", 0),
            ("a logical immediate that is not normal", 0),
            ("a lone MOVK", 0),
            ("an unknown word", 0),
            ("the end", 0),
        ];
        assert_eq!(names, kinds);
    }

    fn is_wide(word: u32) -> bool {
        word >> 23 & 0b111111 == 0b100101
    }

    /// Reads with the MOVKs behind the position changed, by the word that stands there.
    fn changed(
        words: &[u32],
        position: usize,
        numbers: &mut [u64],
        change: fn(u32, u32) -> u32,
    ) -> Result<u64, Refusal> {
        let mut words = words.to_vec();
        let first = words.get(position).copied().unwrap_or_default();
        for word in words.iter_mut().skip(position + 1) {
            if is_wide(*word) && *word >> 29 & 3 == MOVK {
                *word = change(first, *word);
            }
        }
        plain::read(&words, position, numbers)
    }

    #[test]
    fn joins_across_registers() {
        is_found_out(|words, position, numbers| {
            changed(words, position, numbers, |first, more| more & !31 | first & 31)
        });
    }

    #[test]
    fn joins_across_sizes() {
        is_found_out(|words, position, numbers| {
            const SIZE: u32 = 1 << 31;
            changed(words, position, numbers, |first, more| more & !SIZE | first & SIZE)
        });
    }

    /// A MOVK to a place that is not there at 32 bits is taken in.
    #[test]
    fn joins_beyond_32() {
        is_found_out(|words, position, numbers| {
            changed(words, position, numbers, |_, more| match more >> 31 {
                0 => more & !(1 << 22),
                _ => more,
            })
        });
    }

    #[test]
    fn joins_four_words_at_most() {
        is_found_out(|words, position, numbers| {
            let end = words.len().min(position.saturating_add(4));
            plain::read(&words[..end.max(words.len().min(position))], position, numbers)
        });
    }

    /// A halfword that comes again is or-ed in.
    #[test]
    fn halfwords_ored() {
        is_found_out(|words, position, numbers| {
            let kind = plain::read(words, position, numbers)?;
            if kind == plain::CONSTANT {
                for more in &words[position + 1..numbers[0] as usize] {
                    numbers[3] |= u64::from(more >> 5 & 0xFFFF) << (16 * (more >> 21 & 3));
                }
            }
            Ok(kind)
        });
    }

    /// The words of a constant are counted, and the last one left out of it.
    #[test]
    fn a_movk_lost() {
        is_found_out(|words, position, numbers| {
            let kind = plain::read(words, position, numbers)?;
            if kind == plain::CONSTANT && numbers[4] > 1 {
                let [next, .., count] = *numbers.first_chunk::<5>().expect("there are eleven");
                plain::read(&words[..next as usize - 1], position, numbers)?;
                (numbers[0], numbers[4]) = (next, count);
            }
            Ok(kind)
        });
    }

    #[test]
    fn movn_not_inverted() {
        is_found_out(|words, position, numbers| {
            let mut words = words.to_vec();
            match words.get_mut(position) {
                Some(word) if is_wide(*word) && *word >> 29 & 3 == MOVN => *word |= MOVZ << 29,
                _ => {}
            }
            plain::read(&words, position, numbers)
        });
    }

    #[test]
    fn ones_above_32() {
        is_found_out(|words, position, numbers| {
            let kind = plain::read(words, position, numbers)?;
            if kind == plain::CONSTANT && numbers[2] == 32 && numbers[3] >> 31 == 1 {
                numbers[3] |= u64::MAX << 32;
            }
            Ok(kind)
        });
    }

    /// Reads a word that is unknown as another one, of the same bits but those given.
    fn taken_for(
        words: &[u32],
        position: usize,
        numbers: &mut [u64],
        other: fn(u32) -> u32,
    ) -> Result<u64, Refusal> {
        match plain::read(words, position, numbers)? {
            plain::UNKNOWN => {
                let mut words = words.to_vec();
                words[position] = other(words[position]);
                plain::read(&words, position, numbers)
            }
            kind => Ok(kind),
        }
    }

    #[test]
    fn register_31_accepted() {
        is_found_out(|words, position, numbers| {
            taken_for(words, position, numbers, |word| match is_wide(word) && word & 31 == 31 {
                true => word & !1,
                false => word,
            })
        });
    }

    #[test]
    fn opc_01_accepted() {
        is_found_out(|words, position, numbers| {
            taken_for(words, position, numbers, |word| match is_wide(word) {
                true => word & !(1 << 29),
                false => word,
            })
        });
    }

    #[test]
    fn bc_cond_accepted() {
        is_found_out(|words, position, numbers| {
            taken_for(words, position, numbers, |word| match word >> 24 {
                0x54 => word & !(1 << 4),
                _ => word,
            })
        });
    }

    #[test]
    fn the_unallocated_literal_accepted() {
        is_found_out(|words, position, numbers| {
            taken_for(words, position, numbers, |word| match word >> 24 {
                0xDC => word & !(1 << 30),
                _ => word,
            })
        });
    }

    /// N at width 32 is not looked at.
    #[test]
    fn n_at_32_accepted() {
        is_found_out(|words, position, numbers| {
            taken_for(words, position, numbers, |word| match word >> 22 & 0x27F {
                0x049 => word & !(1 << 22),
                _ => word,
            })
        });
    }

    #[test]
    fn not_normal_unreported() {
        is_found_out(|words, position, numbers| {
            let kind = plain::read(words, position, numbers)?;
            if kind == plain::LOGICAL {
                numbers[10] = 1;
            }
            Ok(kind)
        });
    }

    #[test]
    fn ldr_read_as_adr() {
        is_found_out(|words, position, numbers| {
            let kind = plain::read(words, position, numbers)?;
            if kind == plain::DISPLACEMENT && numbers[1] == 5 {
                numbers[1] = 3;
            }
            Ok(kind)
        });
    }

    #[test]
    fn the_end_one_early() {
        is_found_out(|words, position, numbers| match words.len() {
            end if end == position + 1 => Ok(plain::END),
            _ => plain::read(words, position, numbers),
        });
    }

    #[test]
    fn past_the_end_is_the_end() {
        is_found_out(|words, position, numbers| {
            plain::read(words, position.min(words.len()), numbers)
        });
    }

    #[test]
    fn a_number_too_many() {
        is_found_out(|words, position, numbers| {
            let kind = plain::read(words, position, numbers)?;
            if kind == plain::UNKNOWN {
                numbers[3] = 0;
            }
            Ok(kind)
        });
    }

    #[test]
    fn too_few_numbers_accepted() {
        is_found_out(|words, position, numbers| {
            let mut all = [0; NUMBERS];
            let kind = plain::read(words, position, &mut all)?;
            let count = [0, 5, 5, 11, 4, 3][kind as usize];
            if count > numbers.len() {
                return Err(Refusal::NoRoom);
            }
            numbers[..count].copy_from_slice(&all[..count]);
            Ok(kind)
        });
    }

    /// A large R stays, or is lost.
    #[test]
    fn not_written_again() {
        for rewrite in [|word| word, |word| plain::rewrite(word) & !(1 << 21)] as [Rewrite; 2] {
            assert!(found(Entries { rewrite, ..PLAIN }).failed > 0);
        }
    }
}
