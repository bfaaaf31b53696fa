//! Module 7: displacements; with document 02's request h, by which a base must have its format's
//! form, request f, by which an ADRP goes to any target, and request g, by which a target is
//! reached from the address of the place that is written. The host has, besides, a word that stands
//! in the run sent to another distance.

use super::No;
use super::words::{self, Place};

/// A row of the table of formats.
pub struct Format {
    pub step: i64,
    pub least: i64,
    pub greatest: i64,
    /// The parts of the field from its low end on: how many bits, and where they stand.
    pub field: &'static [(u32, u32)],
}

impl Format {
    const fn new(step: i64, least: i64, greatest: i64, field: &'static [(u32, u32)]) -> Self {
        Self { step, least, greatest, field }
    }

    fn bits(&self) -> u32 {
        self.field.iter().map(|(bits, _)| bits).sum()
    }

    /// The field's number in a word.
    pub fn read(&self, word: u32) -> u64 {
        let mut below = 0;
        let mut number = 0;
        for (bits, at) in self.field {
            number += (u64::from(word >> at) % (1 << bits)) << below;
            below += bits;
        }
        number
    }

    /// The word with a number placed in its clear field.
    fn place(&self, base: u32, number: u64) -> u32 {
        let mut above = number;
        let mut word = base;
        for (bits, at) in self.field {
            word += ((above % (1 << bits)) as u32) << at;
            above >>= bits;
        }
        word
    }

    /// The word with its field clear.
    pub fn cleared(&self, word: u32) -> u32 {
        word - self.place(0, self.read(word))
    }
}

const BRANCH_19: Format = Format::new(4, -1048576, 1048572, &[(19, 5)]);

pub const FORMATS: [Format; 6] = [
    Format::new(4, -134217728, 134217724, &[(26, 0)]),
    BRANCH_19,
    Format::new(4, -32768, 32764, &[(14, 5)]),
    Format::new(1, -1048576, 1048575, &[(2, 29), (19, 5)]),
    Format::new(4096, -4294967296, 4294963200, &[(2, 29), (19, 5)]),
    BRANCH_19,
];

/// An instruction's encoding diagram: its 32 bits from the high one on, `0` and `1` where they are
/// fixed, a letter where a field stands, which is `i` for the displacement's.
pub struct Form {
    pub diagram: &'static str,
    /// Ones where a bit is fixed.
    mask: u32,
    /// The fixed bits.
    bits: u32,
}

impl Form {
    const fn new(diagram: &'static str) -> Self {
        assert!(diagram.len() == 32);
        let (mut mask, mut bits, mut at) = (0, 0, 0);
        while at < 32 {
            let (fixed, one) = match diagram.as_bytes()[at] {
                b'0' => (1, 0),
                b'1' => (1, 1),
                letter => {
                    assert!(letter.is_ascii_lowercase());
                    (0, 0)
                }
            };
            (mask, bits, at) = (mask << 1 | fixed, bits << 1 | one, at + 1);
        }
        Self { diagram, mask, bits }
    }
}

/// The instructions of each format, as Arm draws them. What Arm draws none for is unallocated: LDR
/// (literal) with opc 11 and V 1. B.cond with bit 4 set is BC.cond, which document 02 does not name.
pub const FORMS: [&[Form]; 6] = [
    // B and BL: op, 00101, imm26.
    &[Form::new("o00101iiiiiiiiiiiiiiiiiiiiiiiiii")],
    &[
        // B.cond: 01010100, imm19, 0, cond.
        Form::new("01010100iiiiiiiiiiiiiiiiiii0cccc"),
        // CBZ and CBNZ: sf, 011010, op, imm19, Rt.
        Form::new("s011010oiiiiiiiiiiiiiiiiiiittttt"),
    ],
    // TBZ and TBNZ: b5, 011011, op, b40, imm14, Rt.
    &[Form::new("b011011obbbbbiiiiiiiiiiiiiittttt")],
    // ADR: 0, immlo, 10000, immhi, Rd.
    &[Form::new("0ii10000iiiiiiiiiiiiiiiiiiiddddd")],
    // ADRP: 1, immlo, 10000, immhi, Rd.
    &[Form::new("1ii10000iiiiiiiiiiiiiiiiiiiddddd")],
    // Literals: opc, 011, V, 00, imm19, Rt.
    &[
        // LDR to W and X.
        Form::new("0o011000iiiiiiiiiiiiiiiiiiittttt"),
        // LDRSW.
        Form::new("10011000iiiiiiiiiiiiiiiiiiittttt"),
        // PRFM.
        Form::new("11011000iiiiiiiiiiiiiiiiiiittttt"),
        // LDR to S and D.
        Form::new("0o011100iiiiiiiiiiiiiiiiiiittttt"),
        // LDR to Q.
        Form::new("10011100iiiiiiiiiiiiiiiiiiittttt"),
    ],
];

/// Whether a word has the fixed bits of an instruction of the format's form, whatever its field
/// holds. Refusal 7: no such format.
pub fn has_form(format: u32, word: u32) -> Result<bool, No> {
    let forms = FORMS.get(format as usize).ok_or(No(7))?;
    Ok(forms.iter().any(|form| word & form.mask == form.bits))
}

/// Order 7, 11, 6, 4, 5.
pub fn disp_word(format: u32, base: u32, distance: i64) -> Result<u32, No> {
    if !has_form(format, base)? {
        return Err(No(11));
    }
    let format = &FORMATS[format as usize];
    if format.read(base) != 0 {
        return Err(No(6));
    }
    if distance % format.step != 0 {
        return Err(No(4));
    }
    if distance < format.least || distance > format.greatest {
        return Err(No(5));
    }
    Ok(format.place(base, (distance / format.step) as u64))
}

/// Order 15, 7, 11, 6, 4, 5, 8.
pub fn emit_disp_imm(
    run: &mut [u32],
    at: Place,
    format: u32,
    base: u32,
    distance: i64,
) -> Result<u64, No> {
    words::put(run, at, disp_word(format, base, distance).map(|word| vec![word]))
}

/// The same to a target, from the address of the place; no 4 at format 4.
pub fn emit_disp_target(
    run: &mut [u32],
    at: Place,
    format: u32,
    base: u32,
    target: u64,
) -> Result<u64, No> {
    emit_disp_imm(run, at, format, base, distance(format, target, at.address()))
}

/// Another distance in the word that stands at the place, whose field is cleared first. Order 15, 7,
/// 8 (no word stands there), 11, 4, 5.
pub fn retarget(run: &mut [u32], at: Place, format: u32, distance: i64) -> Result<u64, No> {
    if !at.aligned() {
        return Err(No(15));
    }
    let row = FORMATS.get(format as usize).ok_or(No(7))?;
    let standing = usize::try_from(at.position).ok().and_then(|position| run.get_mut(position));
    let word = standing.ok_or(No(8))?;
    *word = disp_word(format, row.cleared(*word), distance)?;
    Ok(at.position + 1)
}

/// The same to a target, from the address of the place; no 4 at format 4.
pub fn retarget_to(run: &mut [u32], at: Place, format: u32, target: u64) -> Result<u64, No> {
    retarget(run, at, format, distance(format, target, at.address()))
}

/// An address as a format counts from it and to it: for ADRP the page that it is on.
pub fn page(format: u32, address: u64) -> u64 {
    if format == 4 { address / 4096 * 4096 } else { address }
}

/// Target minus address modulo 2^64, read as signed; for ADRP both lose their low 12 bits.
pub fn distance(format: u32, target: u64, address: u64) -> i64 {
    page(format, target).wrapping_sub(page(format, address)) as i64
}

/// The low 12 bits of the target, which an ADRP carries for the ADD behind it.
pub fn low_12(format: u32, target: u64) -> Option<u64> {
    (format == 4).then_some(target % 4096)
}

/// The signed distance that a word spells, whatever its form. Refusal 7: no such format.
pub fn read_disp(word: u32, format: u32) -> Result<i64, No> {
    let format = FORMATS.get(format as usize).ok_or(No(7))?;
    let (number, all) = (format.read(word) as i64, 1 << format.bits());
    let signed = if number >= all / 2 { number - all } else { number };
    Ok(signed * format.step)
}

#[cfg(test)]
mod tests {
    use super::*;

    const BRANCHES: [u32; 3] = [0x17FF_FFFF, 0x9400_0002, 0xA5A5_A5A5];

    fn sent(base: u64, position: u64, format: u32, distance: i64) -> (Result<u64, No>, [u32; 3]) {
        let mut run = BRANCHES;
        (retarget(&mut run, Place { base, position }, format, distance), run)
    }

    #[test]
    fn another_distance() {
        assert_eq!(sent(0, 0, 0, 8), (Ok(1), [0x1400_0002, BRANCHES[1], BRANCHES[2]]));
        assert_eq!(sent(4, 1, 0, -4), (Ok(2), [BRANCHES[0], 0x97FF_FFFF, BRANCHES[2]]));
    }

    /// In their order, with all that come behind.
    #[test]
    fn refusals() {
        for (base, position, format, distance, number) in [
            (1, 3, 6, 1 << 40 | 1, 15),
            (0, 3, 6, 1 << 40 | 1, 7),
            (0, 3, 0, 1 << 40 | 1, 8),
            (0, u64::MAX, 0, 4, 8),
            (0, 2, 0, 1 << 40 | 1, 11),
            (0, 0, 1, 4, 11),
            (0, 0, 0, 1 << 40 | 1, 4),
            (0, 0, 0, 134217728, 5),
        ] {
            assert_eq!(sent(base, position, format, distance), (Err(No(number)), BRANCHES));
        }
    }

    /// A word that has a distance, sent away and back, is itself; its field is cleared by the
    /// distance 0, and no other bit is.
    #[test]
    fn there_and_back() {
        for (format, base) in
            [0x9400_0000, 0xB500_001F, 0xB7F8_001F, 0x1000_001F, 0x9000_001F, 0x9C00_001F]
                .into_iter()
                .enumerate()
        {
            let row = &FORMATS[format];
            for distance in [row.least, -row.step, row.step, row.greatest] {
                let word = disp_word(format as u32, base, distance).unwrap();
                assert_eq!(row.cleared(word), base);
                let (mut run, at) = ([word], Place { base: 0, position: 0 });
                assert_eq!(retarget(&mut run, at, format as u32, 0), Ok(1));
                assert_eq!(run, [base]);
                assert_eq!(retarget_to(&mut run, at, format as u32, distance as u64), Ok(1));
                assert_eq!(run, [word]);
            }
        }
    }
}
