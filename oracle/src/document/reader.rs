//! Document 02's request a: a run of words read back, as Arm has them, over the models of moves,
//! logical immediates and displacements; with request h, whose forms are the displacements', and
//! request d, by which logical fields have a length.

use super::displacements::{self, FORMATS};
use super::{No, logical, moves};

/// What stands at a position of a run.
#[derive(Clone, Copy, Debug, PartialEq, Eq)]
pub enum Item {
    /// A MOVZ or MOVN and the MOVK words behind it, so many words in all, and what they leave in
    /// all 64 bits of the register.
    Constant {
        register: u32,
        size: u32,
        value: u64,
        words: u64,
    },
    /// A MOVK that belongs to no constant, with its place in the register, counted in halfwords.
    LoneMovk {
        register: u32,
        size: u32,
        halfword: u32,
        place: u32,
    },
    Logical(Logical),
    /// The base is the word with its field clear; the distance is in bytes.
    Displacement {
        format: u32,
        base: u32,
        distance: i64,
    },
    Unknown {
        word: u32,
        position: u64,
    },
}

/// A logical immediate. It is normal if R is below the element's length, as the encoder has it.
#[derive(Clone, Copy, Debug, PartialEq, Eq)]
pub struct Logical {
    pub operation: u32,
    pub width: u32,
    pub rn: u32,
    pub rd: u32,
    pub value: u64,
    pub n: u32,
    pub s: u32,
    pub r: u32,
    pub length: u32,
    pub normal: bool,
}

/// The bits of a word from a high one down to a low one.
fn bits(word: u32, high: u32, low: u32) -> u32 {
    word >> low & ((1 << (high - low + 1)) - 1)
}

/// The register's size, or the width, that bit 31 tells.
fn size(word: u32) -> u32 {
    32 << bits(word, 31, 31)
}

/// A wide move, with the place of its 16 bits in the register.
#[derive(Clone, Copy)]
struct Wide {
    size: u32,
    opc: u32,
    place: u32,
    halfword: u32,
    register: u32,
}

const MOVN: u32 = 0b00;
const MOVZ: u32 = 0b10;
const MOVK: u32 = 0b11;

impl Wide {
    /// sf, opc, 100101, hw, imm16, Rd. None where Arm has no such move, and for register 31.
    fn of(word: u32) -> Option<Self> {
        let wide = Self {
            size: size(word),
            opc: bits(word, 30, 29),
            place: bits(word, 22, 21),
            halfword: bits(word, 20, 5),
            register: bits(word, 4, 0),
        };
        let known = bits(word, 28, 23) == 0b100101 && matches!(wide.opc, MOVN | MOVZ | MOVK);
        (known && 16 * wide.place < wide.size && wide.register != 31).then_some(wide)
    }

    /// What the register holds after it.
    fn leaves(self, old: u64) -> u64 {
        let at = 16 * self.place;
        let half = u64::from(self.halfword) << at;
        let new = match self.opc {
            MOVN => !half,
            MOVZ => half,
            _ => old & !(0xFFFF << at) | half,
        };
        if self.size == 32 { new % (1 << 32) } else { new }
    }

    /// Whether it belongs to the constant that another one begins.
    fn follows(self, first: Self) -> bool {
        self.opc == MOVK && self.size == first.size && self.register == first.register
    }

    fn word(self) -> u32 {
        let base = u32::from(self.size == 64) << 31 | self.opc << 29 | 0b100101 << 23;
        moves::wide(base, self.place as usize, self.halfword, self.register)
    }
}

/// sf, opc, 100100, N, immr, imms, Rn, Rd. None where Arm leaves the fields undefined.
fn logical_of(word: u32) -> Option<Logical> {
    if bits(word, 28, 23) != 0b100100 {
        return None;
    }
    let (n, s, r) = (bits(word, 22, 22), bits(word, 15, 10), bits(word, 21, 16));
    let value = logical::decode_logical_imm([n, s, r], size(word)).ok()?;
    let length = logical::element_length(n, s)?;
    Some(Logical {
        operation: bits(word, 30, 29),
        width: size(word),
        rn: bits(word, 9, 5),
        rd: bits(word, 4, 0),
        value,
        n,
        s,
        r,
        length,
        normal: r < length,
    })
}

/// What a word is that is no wide move.
fn other_of(word: u32, position: u64) -> Item {
    if let Some(logical) = logical_of(word) {
        return Item::Logical(logical);
    }
    match (0..6).find(|format| displacements::has_form(*format, word) == Ok(true)) {
        Some(format) => {
            let base = FORMATS[format as usize].cleared(word);
            let distance = displacements::read_disp(word, format).expect("the format is known");
            Item::Displacement { format, base, distance }
        }
        None => Item::Unknown { word, position },
    }
}

/// The constant that a MOVZ or MOVN begins, with the words behind it.
fn constant(first: Wide, behind: &[u32]) -> Item {
    let more = behind.iter().map_while(|word| Wide::of(*word).filter(|wide| wide.follows(first)));
    let (mut value, mut words) = (first.leaves(0), 1);
    for wide in more {
        (value, words) = (wide.leaves(value), words + 1);
    }
    Item::Constant { register: first.register, size: first.size, value, words }
}

/// What stands at a position, and the position behind it; None at the end of the run. Refusal 8: the
/// position lies past the end.
pub fn read_at(run: &[u32], position: u64) -> Result<Option<(Item, u64)>, No> {
    let rest = usize::try_from(position).ok().and_then(|at| run.get(at..)).ok_or(No(8))?;
    let Some((word, behind)) = rest.split_first() else {
        return Ok(None);
    };
    let item = match Wide::of(*word) {
        Some(Wide { opc: MOVK, size, place, halfword, register }) => {
            Item::LoneMovk { register, size, halfword, place }
        }
        Some(first) => constant(first, behind),
        None => other_of(*word, position),
    };
    let words = if let Item::Constant { words, .. } = item { words } else { 1 };
    Ok(Some((item, position + words)))
}

/// Every item of a run, each with its position, by reading on from the end of the one before.
pub fn items(run: &[u32]) -> Vec<(u64, Item)> {
    let (mut all, mut position) = (vec![], 0);
    while let Ok(Some((item, next))) = read_at(run, position) {
        all.push((position, item));
        position = next;
    }
    all
}

/// A word written again from its own fields: itself, but that a logical one gets the normal R.
pub fn rewrite(word: u32) -> u32 {
    if let Some(wide) = Wide::of(word) {
        return wide.word();
    }
    match other_of(word, 0) {
        Item::Logical(Logical { operation, width, rn, rd, value, .. }) => {
            logical::logical_word(operation, value, width, rn, rd).expect("the value has fields")
        }
        Item::Displacement { format, base, distance } => {
            displacements::disp_word(format, base, distance).expect("the base has a clear field")
        }
        _ => word,
    }
}

#[cfg(test)]
mod tests {
    use super::*;

    fn single(word: u32) -> Item {
        let (item, next) = read_at(&[word], 0).unwrap().unwrap();
        assert_eq!(next, 1);
        item
    }

    fn constant(register: u32, size: u32, value: u64, words: u64) -> Item {
        Item::Constant { register, size, value, words }
    }

    #[test]
    fn wide_moves() {
        for (word, item) in [
            (0xD280_0003, constant(3, 64, 0, 1)),
            (0xD2E2_469E, constant(30, 64, 0x1234 << 48, 1)),
            (0x9280_0003, constant(3, 64, u64::MAX, 1)),
            (0x92BF_FFC0, constant(0, 64, 0xFFFF_FFFF_0001_FFFF, 1)),
            (0x12BF_FFC0, constant(0, 32, 0x1_FFFF, 1)),
            (0x1280_0001, constant(1, 32, 0xFFFF_FFFF, 1)),
            (0x52A2_4681, constant(1, 32, 0x1234_0000, 1)),
        ] {
            assert_eq!(single(word), item, "{word:08x}");
        }
        let movk = |size, place| Item::LoneMovk { register: 2, size, halfword: 0x1234, place };
        assert_eq!(single(0xF2C2_4682), movk(64, 2));
        assert_eq!(single(0x72A2_4682), movk(32, 1));
    }

    /// No wide move: register 31, a place outside of 32 bits, opc 01, and neighbours of the group.
    #[test]
    fn unknown_wide_moves() {
        for word in [
            0xD280_001F,
            0x9280_001F,
            0xF280_001F,
            0x5280_001F,
            0x1280_001F,
            0x7280_001F,
            0x52C0_0000,
            0x52E0_0000,
            0x12C0_0000,
            0x12E0_0000,
            0x72C0_0000,
            0x72E0_0000,
            0x3280_0000,
            0xB280_0000,
            0xB2E0_0000,
            0x5300_0000,
            0xD300_0000,
        ] {
            assert_eq!(single(word), Item::Unknown { word, position: 0 }, "{word:08x}");
        }
    }

    #[test]
    fn logical_immediates() {
        let and = Logical {
            operation: 0,
            width: 64,
            rn: 1,
            rd: 2,
            value: 0xFF,
            n: 1,
            s: 7,
            r: 0,
            length: 64,
            normal: true,
        };
        assert_eq!(single(0x9240_1C22), Item::Logical(and));
        // ANDS at 32 with registers 31, of 5555.. turned by 5 in an element of 2: R is too large.
        let ands = Logical {
            operation: 3,
            width: 32,
            rn: 31,
            rd: 31,
            value: 0xAAAA_AAAA,
            n: 0,
            s: 60,
            r: 5,
            length: 2,
            normal: false,
        };
        assert_eq!(single(0x7205_F3FF), Item::Logical(ands));
        assert_eq!(rewrite(0x7205_F3FF), 0x7201_F3FF);
        // N at width 32; all ones; no element.
        for word in [0x1240_1C22, 0x9240_FC22, 0x1200_7C22, 0x1200_F822, 0x9200_FC22] {
            assert_eq!(single(word), Item::Unknown { word, position: 0 }, "{word:08x}");
        }
    }

    #[test]
    fn displaced() {
        for (word, format, base, distance) in [
            (0x17FF_FFFF, 0, 0x1400_0000, -4),
            (0x9400_0002, 0, 0x9400_0000, 8),
            (0x5480_000F, 1, 0x5400_000F, -0x10_0000),
            (0xB500_005E, 1, 0xB500_001E, 8),
            (0xB7FF_FFE3, 2, 0xB7F8_0003, -4),
            (0x7000_0001, 3, 0x1000_0001, 3),
            (0xF0FF_FFE1, 4, 0x9000_0001, -4096),
            (0x5800_0040, 5, 0x5800_0000, 8),
            (0xD880_0003, 5, 0xD800_0003, -0x10_0000),
            (0x9C00_003F, 5, 0x9C00_001F, 4),
        ] {
            let item = Item::Displacement { format, base, distance };
            assert_eq!(single(word), item, "{word:08x}");
        }
        // BC.cond, the literal that Arm leaves unallocated, a return and a load.
        for word in [0x5400_0010, 0xDC00_0000, 0xDCFF_FFFF, 0xD65F_03C0, 0xF940_0000, 0, u32::MAX] {
            assert_eq!(single(word), Item::Unknown { word, position: 0 }, "{word:08x}");
        }
    }

    #[test]
    fn the_end_and_beyond() {
        assert_eq!(read_at(&[], 0), Ok(None));
        assert_eq!(read_at(&[0; 3], 3), Ok(None));
        let last = Item::Unknown { word: 0, position: 2 };
        assert_eq!(read_at(&[0; 3], 2), Ok(Some((last, 3))));
        for position in [4, 1 << 32, u64::MAX] {
            assert_eq!(read_at(&[0; 3], position), Err(No(8)));
        }
    }

    /// MOVK at 64 of a halfword to register 1.
    fn movk(place: usize, halfword: u32) -> u32 {
        moves::wide(0xF280_0000, place, halfword, 1)
    }

    /// Twelve words, every halfword more than once: the last one of each counts.
    #[test]
    fn twelve_words() {
        let mut run = vec![0, 0x9280_0001];
        run.extend((0..11).map(|i| movk(i as usize % 4, 0x1000 + i)));
        run.extend([movk(0, 0x2000) + 1, movk(1, 0x3000)]);
        let value = 0x1007_100A_1009_1008;
        assert_eq!(read_at(&run, 1), Ok(Some((constant(1, 64, value, 12), 13))));
        let lone =
            |register, halfword, place| Item::LoneMovk { register, size: 64, halfword, place };
        assert_eq!(
            items(&run),
            [
                (0, Item::Unknown { word: 0, position: 0 }),
                (1, constant(1, 64, value, 12)),
                (13, lone(2, 0x2000, 0)),
                (14, lone(1, 0x3000, 1)),
            ]
        );
        // From the middle on: a MOVK that is lone, and so is each behind it.
        assert_eq!(read_at(&run, 12), Ok(Some((lone(1, 0x100A, 2), 13))));
    }

    /// What ends a constant is read for itself.
    #[test]
    fn what_ends_a_constant() {
        let (first, last) = (0x5280_0021, 0x72A0_0041);
        assert_eq!(items(&[first, last]), [(0, constant(1, 32, 0x2_0001, 2))]);
        // Another register, size or place than there is, register 31, opc 01, a new constant, any.
        for other in [
            0x72A0_0042,
            0xF2A0_0041,
            0x72C0_0041,
            0x72A0_005F,
            0x32A0_0041,
            0x52A0_0041,
            0x12A0_0041,
            0,
        ] {
            let all = items(&[first, other, last]);
            assert_eq!(all[0], (0, constant(1, 32, 1, 1)), "{other:08x}");
            assert_eq!(all[1].0, 1, "{other:08x}");
        }
    }

    /// At 32 nothing is left above, whatever the MOVN.
    #[test]
    fn the_upper_half() {
        let run = [0x1280_0001, 0x72A0_0021];
        assert_eq!(items(&run), [(0, constant(1, 32, 0x1_FFFF, 2))]);
    }

    /// A word of each kind for every top 16 bits, with several lower ones: written again it is the
    /// same word, or the same with R reduced, and then it is read alike.
    #[test]
    fn written_again() {
        for top in 0..1 << 16 {
            for low in [0, 0x1F, 0x5A5A, 0x7C1F, 0xFBE0, 0xFFFF] {
                let word = top << 16 | low;
                match single(word) {
                    Item::Logical(one) if !one.normal => {
                        let r = one.r % one.length;
                        let again = word & !(63 << 16) | r << 16;
                        assert_eq!(rewrite(word), again);
                        let normal = Logical { r, normal: true, ..one };
                        assert_eq!(single(again), Item::Logical(normal));
                    }
                    _ => assert_eq!(rewrite(word), word),
                }
            }
        }
    }
}
