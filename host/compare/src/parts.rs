//! The parts of the comparison.

use oracle::document::displacements::{self, FORMATS};
use oracle::document::words::Place;
use oracle::document::{logical, moves, No};
use oracle::lists::random::Random;
use oracle::replay::by_document;
use oracle::replay::classes::Class;
use oracle::replay::request::{entry::*, Request};
use oracle::rust;
use vaimalofo::{raw, Fields, Refusal};

use crate::calls::compare;
use crate::tally::Tally;
use crate::values;
use crate::work::Part;
use crate::{at_zero, put, words};

/// The items that leave `rest` when their number is divided by `by`; `by` is odd, so that a slice has all low bits in it.
#[derive(Clone, Copy)]
pub struct Slice {
    pub rest: u64,
    pub by: u64,
}

impl Slice {
    /// How many of the items below `all` are in the slice.
    pub fn count(self, all: u64) -> u64 {
        (all + self.by - 1 - self.rest) / self.by
    }

    pub fn item(self, i: u64) -> u64 {
        self.rest + i * self.by
    }

    pub fn text(self) -> String {
        match self.by {
            1 => "all".to_string(),
            by => format!("those that leave {} when divided by {by}, of", self.rest),
        }
    }
}

/// A generator for one item of a part.
pub fn random(part: u64, item: u64) -> Random {
    Random::new((part << 48) + item)
}

// ---- all values of 32 bits

/// Logical fields and their element's length at width 32.
pub fn fields_32(slice: Slice) -> Part {
    Part {
        name: "fields",
        what: format!(
            "logical fields and their element's length at width 32 of {} 2^32 values",
            slice.text()
        ),
        items: slice.count(1 << 32),
        check: Box::new(move |i, tally| fields_of(slice.item(i), tally)),
    }
}

/// The model's length is Arm's for its N and S. The Rust has none.
fn fields_of(value: u64, tally: &mut Tally) {
    let numbers = |Fields { n, s, r, length }| [n, s, r, length];
    let entry = raw::logical_fields(value, 32).map(numbers);
    let document = logical::encode_logical_imm(value, 32);
    let original = rust::encode_logical_imm(value, 32);
    let agree = match (entry, document) {
        (Ok(entry @ [n, s, r, _]), Ok(document)) => {
            entry == document && original == Ok(Some([n, s, r]))
        }
        (Err(refusal), Err(No(3))) => refusal.number() == 3 && original == Ok(None),
        _ => false,
    };
    match agree {
        true => tally.same += 1,
        false => tally.fails(|| format!("fields at 32 of {value:x}: {entry:?}, document 01 {document:?}, the Rust {original:?}")),
    }
}

/// Moves of values up to FFFFFFFF. The register and the position go with the value.
pub fn moves_32(slice: Slice) -> Part {
    Part {
        name: "moves",
        what: format!("moves of {} 2^32 values up to FFFFFFFF", slice.text()),
        items: slice.count(1 << 32),
        check: Box::new(move |i, tally| move_of(slice.item(i), tally)),
    }
}

/// A run of five words and a tail of two bytes, whose every byte is watched.
const RUN: [u8; 22] = [0xA7; 22];

fn move_of(value: u64, tally: &mut Tally) {
    let mixed = (value as u32).wrapping_mul(0x9E37_79B1);
    let (rd, position) = ((mixed >> 8) % 31, (mixed >> 28) as usize % 4);
    let document = moves::move_words(value, rd).expect("the register is below 31");
    let mut expected = RUN;
    put(&mut expected, position, &document);
    let mut run = RUN;
    let answer = raw::mov(&mut run, at_zero(position), value, rd);
    if answer != Ok(at_zero(position + document.len())) || run != expected {
        return tally.fails(|| {
            format!("move of {value:x} to {rd}: {answer:?} {run:x?}, document 01 {document:x?}")
        });
    }
    let original = rust::encode_mov_sequence64(value, rd, 1);
    if original == document {
        tally.same += 1;
    } else if original.len() == 1 && document.len() == 1 && original[0] == document[0] | 1 << 31 {
        tally.differs(Class::MovnUpperHalf);
    } else {
        tally.fails(|| {
            format!("move of {value:x} to {rd}: the Rust {original:x?}, document 01 {document:x?}")
        });
    }
}

/// Every word as a base of each format, and its form.
pub fn bases(slice: Slice) -> Part {
    Part {
        name: "bases",
        what: format!("{} 2^32 words as bases of each format, at a distance of one step; and whether each has the format's form", slice.text()),
        items: slice.count(1 << 32),
        check: Box::new(move |i, tally| {
            let word = slice.item(i) as u32;
            for format in 0..6 {
                check_base(format, word, tally);
                check_form(format, word, tally);
            }
        }),
    }
}

/// The Rust, which looks at no base, is asked where the base is accepted.
fn check_base(format: u32, base: u32, tally: &mut Tally) {
    let step = FORMATS[format as usize].step;
    let document = displacements::disp_word(format, base, step);
    let mut run = RUN;
    let answer = raw::displacement(&mut run, at_zero(1), format, base, step);
    let mut expected = RUN;
    if let Ok(word) = document {
        put(&mut expected, 1, &[word]);
    }
    if answer.map_err(number) != document.map(|_| at_zero(2)) || run != expected {
        return tally.fails(|| {
            let document = document.map(|word| format!("{word:08x}"));
            format!(
                "base {base:08x} at format {format}: {answer:?} {run:x?}, document 01 {document:?}"
            )
        });
    }
    match document {
        Ok(_) => {
            let numbers = [format.into(), base.into(), step as u64, 3, 1];
            compare(&Request::new(DISP_IMM, &numbers), 2, tally)
        }
        Err(_) => tally.alone += 1,
    }
}

fn check_form(format: u32, word: u32, tally: &mut Tally) {
    let answer = raw::has_form(format, word);
    let document = displacements::has_form(format, word);
    match answer.map_err(number) == document {
        true => tally.alone += 1,
        false => tally
            .fails(|| format!("form {format} of {word:08x}: {answer:?}, document 01 {document:?}")),
    }
}

/// A refusal as the model gives it.
pub fn number(refusal: Refusal) -> No {
    No(refusal.number().into())
}

// ---- distances

/// How far beyond both ends of a format's range distances are asked, in steps.
const BEYOND: i64 = 16;

/// The distances asked of a format are this far apart: every one of formats 1, 2, 3 and 5.
const STRIDES: [i64; 6] = [29, 1, 1, 1, 1024, 1];

/// Base words of each format, registers and conditions left 0.
const BASES: [&[u32]; 6] = [
    &[0x1400_0000, 0x9400_0000],
    &[0x5400_0000, 0x3400_0000, 0xB500_0000],
    &[0x3600_0000, 0xB700_0000],
    &[0x1000_0000],
    &[0x9000_0000],
    &[0x1800_0000, 0x5800_0000, 0x9800_0000, 0xD800_0000, 0x1C00_0000, 0x5C00_0000, 0x9C00_0000],
];

/// The first distance of a format, and how many are asked.
fn span(format: usize) -> (i64, u64) {
    let row = &FORMATS[format];
    let first = row.least - BEYOND * row.step;
    let past = row.greatest + (BEYOND + 1) * row.step;
    (first, ((past - first) / STRIDES[format]) as u64)
}

/// How many distances are asked of all formats.
pub fn distances() -> u64 {
    (0..6).map(|format| span(format).1).sum()
}

/// Distances around the ends of each format's range and around 0: they are asked in every slice.
pub fn ends() -> Vec<(usize, i64)> {
    let around = |(format, end, step)| (-4..=4).map(move |k: i64| (format, end + k * step));
    let rows = FORMATS.iter().enumerate();
    rows.flat_map(|(format, row)| [row.least, 0, row.greatest].map(|end| (format, end, row.step)))
        .flat_map(around)
        .collect()
}

/// Distances into words, targets into words, and words read.
pub fn displacements(slice: Slice) -> Part {
    let (all, ends) = (distances(), ends());
    let first = ends.len() as u64;
    Part {
        name: "displacements",
        what: format!(
            "{} {all} distances: every one of formats 1, 2, 3 and 5, every 29th of 0, every 1024th of 4, to 16 steps beyond; each by distance, by target, and read",
            slice.text()
        ),
        items: first + slice.count(all),
        check: Box::new(move |i, tally| {
            let mut random = random(1, i);
            let (format, distance) = match ends.get(i as usize) {
                Some(end) => *end,
                None => distance_of(slice.item(i - first)),
            };
            check_distance(format, distance, &mut random, tally);
        }),
    }
}

/// The format and the distance of an item.
pub fn distance_of(mut item: u64) -> (usize, i64) {
    for (format, stride) in STRIDES.iter().enumerate() {
        let (first, count) = span(format);
        if item < count {
            return (format, first + item as i64 * stride);
        }
        item -= count;
    }
    unreachable!("there are no more items than distances")
}

/// One of a format's base words, with any register or condition.
pub fn own_base(format: usize, random: &mut Random) -> u32 {
    let base = random.one_of(BASES[format]);
    match format {
        0 => base,
        1 => base + random.below(16) as u32,
        _ => base + random.below(32) as u32,
    }
}

/// A base word of the format; now and then any word.
fn base(format: usize, random: &mut Random) -> u64 {
    match random.below(16) {
        0 => random.value() as u32 as u64,
        _ => own_base(format, random).into(),
    }
}

fn check_distance(format: usize, distance: i64, random: &mut Random, tally: &mut Tally) {
    let (number, base) = (format as u64, base(format, random));
    let tail = random.below(4) as usize;
    compare(&Request::new(DISP_IMM, &[number, base, distance as u64, 2, 1]), tail, tally);
    // The Rust's buffer has an offset of 32 bits; a higher address is compared with document 01 alone.
    let first = match random.below(4) {
        0 => 0,
        _ => random.value() >> random.one_of(&[0, 32, 44]) & !3,
    };
    let at = Place { base: first, position: 1 };
    let target = target(format, distance, at, random);
    compare(&Request::writing(DISP_TARGET, &[number, base, target], 2, at), tail, tally);
    let mut run = [0; 4];
    let word = match raw::displacement(&mut run, at_zero(0), number as u32, base as u32, distance) {
        Ok(_) => words(&run)[0],
        Err(_) => random.value() as u32,
    };
    compare(&Request::new(READ_DISP, &[word.into(), number]), 0, tally);
}

/// The target that lies so far from a place; an ADRP's from its page, and half of these up to 1023 bytes on, so at any place of a page.
pub fn target(format: usize, distance: i64, at: Place, random: &mut Random) -> u64 {
    let inside = if format == 4 { random.below(2) * random.below(1024) } else { 0 };
    let origin = displacements::page(format as u32, at.address());
    origin.wrapping_add_signed(distance).wrapping_add(inside)
}

// ---- mixed values

/// Mixed values of 64 bits: a move, fields at both widths, a logical word and a patchable move of each.
pub fn mixed(count: u64) -> Part {
    Part {
        name: "mixed",
        what: format!("{count} mixed 64-bit values: each a move, fields at 64 and 32, a logical word, a patchable move"),
        items: count,
        check: Box::new(mixed_item),
    }
}

fn mixed_item(item: u64, tally: &mut Tally) {
    let mut random = random(2, item);
    let value = values::mixed(&mut random, item);
    let (rd, rn) = (random.below(31), random.below(32));
    let (operation, width) = (random.below(4), random.one_of(&[32, 64]));
    let (position, tail) = (random.below(5), random.below(4) as usize);
    compare(&Request::new(MOVE, &[value, rd, 8, position]), tail, tally);
    compare(&Request::new(ENCODE_LOGICAL, &[value, 64]), tail, tally);
    compare(&Request::new(ENCODE_LOGICAL, &[value, 32]), tail, tally);
    compare(
        &Request::new(LOGICAL_WORD, &[operation, value, width, rn, rd, 8, position]),
        tail,
        tally,
    );
    compare(&Request::new(PATCHABLE_MOVE, &[value, width, rd, 8, position]), tail, tally);
}

// ---- damaged calls

/// Calls with wrong widths, registers, formats, operations, positions and short runs.
pub fn damaged(count: u64) -> Part {
    Part {
        name: "damaged",
        what: format!("{count} damaged calls of the entries of moves, logical immediates and displacements: wrong widths, registers, formats, operations, positions, short runs"),
        items: count,
        check: Box::new(damaged_item),
    }
}

/// The entries that write new words, and with them those that find fields and read words.
const WRITING: [u64; 5] = [MOVE, PATCHABLE_MOVE, LOGICAL_WORD, DISP_IMM, DISP_TARGET];
const ENTRIES: [u64; 8] = [
    MOVE,
    PATCHABLE_MOVE,
    ENCODE_LOGICAL,
    LOGICAL_WORD,
    DISP_IMM,
    DISP_TARGET,
    READ_DISP,
    HAS_FORM,
];

fn damaged_item(item: u64, tally: &mut Tally) {
    let (request, tail) = damage(ENTRIES[item as usize % 8], item / 8, &mut random(3, item));
    compare(&request, tail, tally);
}

/// A damaged request, with a value of the kind of that number, and the tail of its run. The base address is 0, of every second target any
/// below 2^32.
fn damage(entry: u64, kind: u64, r: &mut Random) -> (Request, usize) {
    let value = values::mixed(r, kind);
    let (length, tail) = (r.below(9), r.below(4) as usize);
    let position = match r.below(4) {
        0 => r.value(),
        1 => (r.below(3)).wrapping_sub(2),
        _ => r.below(length + 2),
    };
    let width = one_in_two(r, &[32, 64]);
    let (format, operation) = (one_in_two(r, &[0, 1, 2, 3, 4, 5]), one_in_two(r, &[0, 1, 2, 3]));
    let (rn, rd) = (one_in_two(r, &[0, 30, 31, 32]), one_in_two(r, &[0, 30, 31, 32]));
    let word = base(format as usize % 6, r);
    let at = Place { base: 0, position };
    let request = match entry {
        MOVE => Request::writing(entry, &[value, rd], length, at),
        PATCHABLE_MOVE => Request::writing(entry, &[value, width, rd], length, at),
        ENCODE_LOGICAL => Request::new(entry, &[value, width]),
        LOGICAL_WORD => Request::writing(entry, &[operation, value, width, rn, rd], length, at),
        DISP_IMM => Request::writing(entry, &[format, word, near(value, r)], length, at),
        DISP_TARGET => {
            let (target, base) = (near(value, r), r.below(2) * (r.value() >> 32 & !3));
            Request::writing(entry, &[format, word, target], length, Place { base, position })
        }
        READ_DISP => Request::new(entry, &[value & 0xFFFF_FFFF, format]),
        _ => Request::new(HAS_FORM, &[format, word]),
    };
    (request, tail)
}

/// One of the numbers given, or one that is small, next to a power of two, or any of 32 bits.
pub fn one_in_two(random: &mut Random, given: &[u64]) -> u64 {
    match random.below(2) {
        0 => random.one_of(given),
        _ => random.number(),
    }
}

/// A distance: the value, or a small one of either sign.
pub fn near(value: u64, random: &mut Random) -> u64 {
    match random.below(2) {
        0 => value,
        _ => (value as i64 >> random.below(64)) as u64,
    }
}

// ---- base addresses

/// Each entry that writes new words where addresses wrap, and damaged calls of them.
pub fn wrapping(count: u64) -> Part {
    let (all, ends) = (distances(), ends());
    Part {
        name: "wrapping",
        what: format!("{count} times each entry that writes new words, and one of them damaged, at base addresses from 2^64 - 32 on, where addresses wrap"),
        items: count,
        check: Box::new(move |i, tally| {
            let mut random = random(11, i);
            let by = match random.below(2) {
                0 => random.one_of(&ends),
                _ => distance_of(random.below(all)),
            };
            for (request, tail) in wrapped(i, by, &mut random) {
                compare(&request, tail, tally);
            }
        }),
    }
}

/// The requests of an item, with their tails.
fn wrapped(item: u64, (format, distance): (usize, i64), r: &mut Random) -> [(Request, usize); 6] {
    let (value, rd, rn) = (values::mixed(r, item), r.below(31), r.below(32));
    let (operation, width) = (r.below(4), r.one_of(&[32, 64]));
    let (number, base) = (format as u64, base(format, r));
    let at = Place { base: values::high_base(r), position: around(r) };
    let target = target(format, distance, at, r);
    let tail = r.below(4) as usize;
    let good = |entry, given: &[u64]| (Request::writing(entry, given, 8, at), tail);
    let (damaged, damaged_tail) = damage(r.one_of(&WRITING), item, r);
    [
        good(MOVE, &[value, rd]),
        good(PATCHABLE_MOVE, &[value, width, rd]),
        good(LOGICAL_WORD, &[operation, value, width, rn, rd]),
        good(DISP_IMM, &[number, base, distance as u64]),
        good(DISP_TARGET, &[number, base, target]),
        (damaged.moved(at.base), damaged_tail),
    ]
}

/// A position in a run of eight words; one time in eight one up to 8 from a multiple of 2^62, of which four times as much wraps.
pub fn around(random: &mut Random) -> u64 {
    match random.below(8) {
        0 => (random.below(4) << 62).wrapping_add(random.below(17)).wrapping_sub(8),
        _ => random.below(8),
    }
}

/// Damaged and other calls of the entries that write new words, at base addresses that are not multiples of 4: all get 15.
pub fn unaligned(count: u64) -> Part {
    Part {
        name: "unaligned",
        what: format!("{count} calls of the entries that write new words, damaged or not, at base addresses that leave 1, 2 or 3 when divided by 4"),
        items: count,
        check: Box::new(unaligned_item),
    }
}

fn unaligned_item(item: u64, tally: &mut Tally) {
    let mut random = random(12, item);
    let (request, tail) = damage(WRITING[item as usize % 5], item / 5, &mut random);
    let base = match random.below(2) {
        0 => values::high_base(&mut random),
        _ => random.value() >> random.below(64) & !3,
    };
    let request = request.moved(base + 1 + random.below(3));
    match by_document::answer(&request).is_no(15) {
        true => compare(&request, tail, tally),
        false => tally.fails(|| format!("{request}: document 01 does not refuse it with 15")),
    }
}
