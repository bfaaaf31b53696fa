//! Module 7, for each format. Distances: the limits and their neighbours by one and by one step, 0,
//! 2,100 random ones in range and 500 outside, the ends of the signed numbers; bases with each
//! single bit set; wrong formats and no room. Targets: the same edges around several addresses, and
//! ones that wrap past 2^64. Reading: single bits and random words. Forms: every top byte of a base
//! with several lower bits, the neighbours of each real base by one bit, the bases of the other
//! formats, every condition with bit 4 clear and set, and refusals that apply at once. Pages:
//! targets at the ends of a page and inside it, around the ends of the range of pages and of the
//! addresses, at every format; and 2,500 random ones of an ADRP that are in range. Places: right
//! and wrong ones of each format from every base address, by distance and by target; and targets
//! that three words share.
//!
//! A target is mostly asked from an address (`from_address`), as document 01 has it: the base
//! address is what gives it at the position.

use super::random::Random;
use super::{List, U32, placed, room};
use crate::document::displacements::{FORMATS, Format, page};
use crate::document::words::Place;
use crate::replay::request::{Request, entry::*};

pub const LIST: List =
    List { number: 7, entries: &[DISP_IMM, DISP_TARGET, READ_DISP, HAS_FORM], requests, any };

/// Base words of each format: B and BL; B.cond, CBZ and CBNZ; TBZ and TBNZ; ADR; ADRP; LDR X, LDR W,
/// LDRSW, LDR S, PRFM, LDR D and LDR Q.
const BASES: [&[u64]; 6] = [
    &[0x1400_0000, 0x9400_0000],
    &[0x5400_0000, 0x3400_0005, 0xB500_001E],
    &[0x3600_0000, 0xB7F8_0003],
    &[0x1000_0000, 0x1000_001E],
    &[0x9000_0000, 0x9000_0007],
    &[0x5800_0000, 0x1800_0001, 0x9800_0002, 0x1C00_0003, 0xD800_0003, 0x5C00_0004, 0x9C00_001F],
];

/// A bit that is in the field of every format.
const FIELD_BIT: u64 = 1 << 5;

/// Lower bits below a top byte: none, bit 4, a register or condition, a bit of the field, all.
const LOWER: [u64; 5] = [0, 1 << 4, 0xF, FIELD_BIT, 0xFF_FFFF];

fn requests() -> Vec<Request> {
    let mut random = Random::new(7);
    let mut list = vec![];
    for (number, format) in (0..).zip(&FORMATS) {
        distances(&mut list, number, format, &mut random);
        bases(&mut list, number, format);
        targets(&mut list, number, format);
        list.extend((0..32).map(|bit| Request::new(READ_DISP, &[1 << bit, number])));
        list.extend([0, U32, 1 << 32].map(|word| Request::new(READ_DISP, &[word, number])));
    }
    list.extend((0..1000).map(|_| any(DISP_TARGET, &mut random)));
    list.extend((0..500).map(|_| any(READ_DISP, &mut random)));
    for number in [6, 7, U32] {
        for base in [0, 0x1400_0000, U32] {
            list.push(Request::new(DISP_IMM, &[number, base, 2, 0, 0]));
            list.push(from_address([number, base, 2], 0, [0, 0]));
            list.push(Request::new(READ_DISP, &[base, number]));
            list.push(Request::new(HAS_FORM, &[number, base]));
        }
    }
    for (number, format) in (0..).zip(&FORMATS) {
        top_bytes(&mut list, number, format);
        neighbours(&mut list, number, format);
        other_forms(&mut list, number, format);
        orders(&mut list, number, format);
    }
    // Every condition, of B.cond and of BC.cond.
    for word in 0x5400_0000..0x5400_0020 {
        forms_asked(&mut list, 1, &FORMATS[1], word);
    }
    for number in 0..6 {
        pages(&mut list, number);
    }
    page_orders(&mut list);
    list.extend((0..2500).map(|_| any_page(&mut random)));
    places(&mut list);
    for (number, format) in (0..).zip(&FORMATS) {
        three_words(&mut list, number, format);
    }
    list
}

/// A target from an address. One where no word can stand is rounded down to a multiple of 4, and
/// the target moves along, so that the distance stays; for ADRP it stays anyway, and so does the
/// target.
fn from_address(given: [u64; 3], address: u64, [len, position]: [u64; 2]) -> Request {
    let [number, word, target] = given;
    let stands = address & !3;
    let by = page(number as u32, address) - page(number as u32, stands);
    let at = Place { base: stands.wrapping_sub(position.wrapping_mul(4)), position };
    Request::writing(DISP_TARGET, &[number, word, target.wrapping_sub(by)], len, at)
}

/// Distances at which an answer may turn.
fn edges(format: &Format) -> Vec<i64> {
    let mut edges = vec![i64::MIN, i64::MIN + 1, i64::MIN + 4096, i64::MAX, i64::MAX - 4095];
    for limit in [format.least, 0, format.greatest] {
        for near in [limit - format.step, limit, limit + format.step] {
            edges.extend([near - 1, near, near + 1]);
        }
    }
    edges
}

fn in_range(format: &Format, random: &mut Random) -> i64 {
    let steps = (format.greatest - format.least) / format.step + 1;
    format.least + format.step * random.below(steps as u64) as i64
}

/// A distance outside the range: far, or near the limits; on the step or not.
fn outside(format: &Format, random: &mut Random) -> i64 {
    loop {
        let distance = match random.below(3) {
            0 => random.value() as i64,
            1 => (random.value() as i64 >> random.below(32)) / format.step * format.step,
            _ => in_range(format, random) * 3,
        };
        if distance < format.least || distance > format.greatest {
            return distance;
        }
    }
}

fn distances(list: &mut Vec<Request>, number: u64, format: &Format, random: &mut Random) {
    let mut push = |distance: i64, base: u64| {
        list.push(Request::new(DISP_IMM, &[number, base, distance as u64, 1, 0]));
    };
    for base in BASES[number as usize] {
        edges(format).into_iter().for_each(|distance| push(distance, *base));
    }
    for _ in 0..2100 {
        push(in_range(format, random), random.one_of(BASES[number as usize]));
    }
    for _ in 0..500 {
        push(outside(format, random), random.one_of(BASES[number as usize]));
    }
}

/// Each single bit set beside a base, at distances that are right, off the step and out of range;
/// and runs without room.
fn bases(list: &mut Vec<Request>, number: u64, format: &Format) {
    let base = BASES[number as usize][0];
    let far = format.greatest + format.step;
    for distance in [0, format.step, 2, far, far + 1].map(|distance| distance as u64) {
        for bit in 0..32 {
            list.push(Request::new(DISP_IMM, &[number, base | 1 << bit, distance, 1, 0]));
        }
        for [len, position] in [[0, 0], [1, 1], [2, 1], [3, 4], [8, u64::MAX]] {
            list.push(Request::new(DISP_IMM, &[number, base, distance, len, position]));
            list.push(from_address([number, base, distance], 0, [len, position]));
        }
    }
}

fn targets(list: &mut Vec<Request>, number: u64, format: &Format) {
    let base = BASES[number as usize][0];
    let addresses = [0, 4, 0x1000, 0x1FF8, 0x1FFC, 0x2003, U32 - 3, 1 << 32, 1 << 63, u64::MAX - 3];
    for address in addresses {
        let origin = page(number as u32, address);
        for distance in edges(format).into_iter().chain([8]) {
            let target = origin.wrapping_add(distance as u64);
            list.push(from_address([number, base, target], address, [1, 0]));
        }
    }
}

/// A word as a base by distance, one step of the format, and whether it has the format's form.
fn forms_asked(list: &mut Vec<Request>, number: u64, format: &Format, word: u64) {
    list.push(Request::new(DISP_IMM, &[number, word, format.step as u64, 1, 0]));
    list.push(Request::new(HAS_FORM, &[number, word]));
}

/// Every top byte. Among them are the unallocated literal (DC), B.cond beside BC.cond (54 and bit 4)
/// and beside no instruction (55).
fn top_bytes(list: &mut Vec<Request>, number: u64, format: &Format) {
    for top in 0..256 {
        LOWER.into_iter().for_each(|low| forms_asked(list, number, format, top << 24 | low));
    }
}

/// Each real base with one bit turned over, also by target; and with bits above the 32 that count.
fn neighbours(list: &mut Vec<Request>, number: u64, format: &Format) {
    for base in BASES[number as usize] {
        for word in (0..32).map(|bit| base ^ 1 << bit) {
            forms_asked(list, number, format, word);
            let target = 4096 + format.step as u64;
            list.push(from_address([number, word, target], 4096, [1, 0]));
        }
        forms_asked(list, number, format, 1 << 32 | base);
        list.push(Request::new(HAS_FORM, &[1 << 32 | number, *base]));
    }
}

/// The bases of the other formats, which the reader reads all the same.
fn other_forms(list: &mut Vec<Request>, number: u64, format: &Format) {
    for word in BASES.concat() {
        forms_asked(list, number, format, word);
        list.push(from_address([number, word, 0], 0, [1, 0]));
        list.push(Request::new(READ_DISP, &[word, number]));
        list.push(Request::new(READ_DISP, &[word | 0x00A5_5AA0, number]));
    }
}

/// Refusals that apply at once, all ways: the format's base or another's, its field clear or not, a
/// distance that is right, off the step, out of range or both, room or none; also at no format.
fn orders(list: &mut Vec<Request>, number: u64, format: &Format) {
    let [own, other] = [number, (number + 1) % 6].map(|number| BASES[number as usize][0]);
    let far = format.greatest + format.step;
    for base in [own, own | FIELD_BIT, other, other | FIELD_BIT] {
        for distance in [format.step, 2, far, far + 1].map(|distance| distance as u64) {
            for position in [0, 1] {
                for number in [number, 6] {
                    list.push(Request::new(DISP_IMM, &[number, base, distance, 1, position]));
                    list.push(from_address([number, base, distance], 0, [1, position]));
                }
            }
        }
    }
}

/// Places in a page: its ends, what an ADD's field or a shorter one could lose, and multiples of small
/// powers of two.
const PLACES: [u64; 10] = [0, 1, 2, 4, 8, 0x7FF, 0x800, 0xFF8, 0xFFC, 0xFFF];

/// Targets by their page and their place in it, from addresses at the ends of pages, of the 32-bit
/// numbers and of all: for ADRP around the ends of the range, else around the address.
fn pages(list: &mut Vec<Request>, number: u64) {
    let adrp = &FORMATS[4];
    let addresses =
        [0, 0xFFC, 0x1000, 0x1FF8, 0x2003, U32 - 3, 1 << 32, 1 << 63, u64::MAX - 4095, u64::MAX];
    let limits = if number == 4 { &[adrp.least, 0, adrp.greatest][..] } else { &[0] };
    let apart = limits.iter().flat_map(|limit| [limit - adrp.step, *limit, limit + adrp.step]);
    for distance in apart {
        for address in addresses {
            for place in PLACES {
                let target = page(4, address).wrapping_add(distance as u64) + place;
                let base = BASES[number as usize][0];
                list.push(from_address([number, base, target], address, [1, 0]));
            }
        }
    }
}

/// Refusals at a target inside a page: another form, a field that is taken, too far, no room; and by
/// distance, where the bits are not cleared.
fn page_orders(list: &mut Vec<Request>) {
    let bases = [BASES[4][1], BASES[4][1] | FIELD_BIT, BASES[3][0], BASES[3][0] | FIELD_BIT];
    for base in bases {
        for target in [0x3004, 0x3FFF, 0x1_0000_0FFF, 0x1_0000_1001] {
            for [len, position] in [[1, 0], [0, 0], [1, 1], [3, 2], [8, u64::MAX]] {
                list.push(from_address([4, base, target], 0x1000, [len, position]));
            }
            list.push(Request::new(DISP_IMM, &[4, base, target, 1, 0]));
        }
    }
}

/// An ADRP in range, from an address on the step of an instruction, to any place of its target's page.
fn any_page(random: &mut Random) -> Request {
    let address = random.value() >> random.one_of(&[0, 0, 32, 33, 44]) & !3;
    let distance = in_range(&FORMATS[4], random) as u64;
    let target = page(4, address).wrapping_add(distance) + random.below(4096);
    let base = BASES[4][0] | random.below(32);
    from_address([4, base, target], address, [1, 0])
}

/// Right ones, each refusal alone, and several at once, from every base address. Of all formats
/// what is first goes everywhere, and so does an ADRP to the end of a page.
fn places(list: &mut Vec<Request>) {
    let mut given = vec![];
    for (number, format) in (0..).zip(&FORMATS) {
        let [own, other] = [number, (number + 1) % 6].map(|number| BASES[number as usize][0]);
        let [step, far] = [format.step, format.greatest + format.step].map(|bytes| bytes as u64);
        given.extend([[number, own, step], [number, other, step], [number, own | FIELD_BIT, step]]);
        given.extend([[number, own, 2], [number, own, far], [number, own, far + 1]]);
        given.extend([own, other].map(|base| [number, base | FIELD_BIT, far + 1]));
    }
    given.extend([[6, BASES[0][0], 4], [6, BASES[3][0] | FIELD_BIT, u64::MAX >> 1]]);
    list.extend(placed(DISP_IMM, &given));
    list.extend(placed(DISP_TARGET, &given));
    list.extend(placed(DISP_TARGET, &[[4, BASES[4][1], 0x1FFF]]));
}

/// Targets that three words share: around the ends of the range and around 0, as seen from the
/// middle word. Between the words the address goes on from 0, to another page, past the Rust's
/// offsets, or past 2^64 before the middle word or behind it.
fn three_words(list: &mut Vec<Request>, number: u64, format: &Format) {
    let word = BASES[number as usize][0];
    let apart = format.step.max(4);
    for base in [0, 0xFFC, U32 - 3, u64::MAX - 7, u64::MAX - 3] {
        let middle = page(number as u32, Place { base, position: 1 }.address());
        for limit in [format.least, 0, format.greatest] {
            for distance in [limit - apart, limit, limit + apart] {
                let target = middle.wrapping_add(distance as u64);
                list.extend([0, 1, 2].map(|position| {
                    let at = Place { base, position };
                    Request::writing(DISP_TARGET, &[number, word, target], 3, at)
                }));
            }
        }
    }
}

fn any(entry: u64, random: &mut Random) -> Request {
    let number = random.below(6);
    let format = &FORMATS[number as usize];
    let distance = match random.below(8) {
        0 => random.value() as i64,
        1 => outside(format, random),
        2 => random.one_of(&edges(format)),
        _ => in_range(format, random),
    };
    let address = match random.below(8) {
        0 => random.value(),
        1 => random.number(),
        _ => random.below(1 << 32) & !3,
    };
    // Half of the ADRPs go to the start of a page.
    let place = if number == 4 { random.below(2) * random.below(4096) } else { 0 };
    let target = page(number as u32, address).wrapping_add(distance as u64).wrapping_add(place);
    let base =
        if random.below(8) == 0 { random.value() } else { random.one_of(BASES[number as usize]) };
    let number = if random.below(32) == 0 { random.number() } else { number };
    let [len, position] = room(random);
    match entry {
        DISP_IMM => Request::new(entry, &[number, base, distance as u64, len, position]),
        DISP_TARGET => from_address([number, base, target], address, [len, position]),
        HAS_FORM => Request::new(entry, &[number, base]),
        _ => Request::new(entry, &[random.value(), number]),
    }
}
