//! The formats in which an instruction has a displacement.

use core::fmt;
use core::ops::RangeInclusive;

/// A displacement format: which instructions have it, where their field is, in which steps it counts and how far it goes. There are no
/// more of them than Arm has, so a match may name them all.
///
/// ```
/// use vaimalofo::Format;
///
/// let tbz = Format::Branch14;
/// assert_eq!(tbz.instructions(), "TBZ and TBNZ");
/// assert_eq!((tbz.step(), tbz.range()), (4, -32768..=32764));
/// assert_eq!(tbz.to_string(), tbz.instructions());
/// ```
#[derive(Clone, Copy, Debug, PartialEq, Eq, PartialOrd, Ord, Hash)]
#[repr(u32)]
pub enum Format {
    /// B and BL: 26 bits at bit 0, in steps of 4.
    Branch26 = 0,
    /// B.cond, CBZ and CBNZ: 19 bits at bit 5, in steps of 4.
    Branch19 = 1,
    /// TBZ and TBNZ: 14 bits at bit 5, in steps of 4.
    Branch14 = 2,
    /// ADR: 21 bits, the low 2 at bit 29 and the rest at bit 5.
    Adr21 = 3,
    /// ADRP: 21 bits as for ADR, in steps of 4096.
    Adrp21 = 4,
    /// LDR, LDRSW and PRFM (literal), of SIMD registers too: 19 bits at bit 5, in steps of 4.
    Ldr19 = 5,
}

impl Format {
    /// All of them, in the order of their numbers.
    ///
    /// ```
    /// use vaimalofo::Format;
    ///
    /// assert!((0..).zip(Format::ALL).all(|(number, format)| format.number() == number));
    /// ```
    pub const ALL: [Format; 6] = [
        Format::Branch26,
        Format::Branch19,
        Format::Branch14,
        Format::Adr21,
        Format::Adrp21,
        Format::Ldr19,
    ];

    /// The number that stands for it at the C entries and in [`raw`](crate::raw).
    ///
    /// ```
    /// assert_eq!(vaimalofo::Format::Ldr19.number(), 5);
    /// ```
    #[inline]
    pub const fn number(self) -> u32 {
        self as u32
    }

    /// The format of a number up to 5.
    ///
    /// ```
    /// use vaimalofo::Format;
    ///
    /// assert_eq!(Format::from_number(4), Some(Format::Adrp21));
    /// assert_eq!(Format::from_number(6), None);
    /// ```
    #[inline]
    pub const fn from_number(number: u32) -> Option<Format> {
        match number {
            0..=5 => Some(Format::ALL[number as usize]),
            _ => None,
        }
    }

    /// What a distance must be a multiple of, in bytes.
    ///
    /// ```
    /// use vaimalofo::Format;
    ///
    /// assert_eq!([Format::Adr21, Format::Adrp21, Format::Ldr19].map(Format::step), [1, 4096, 4]);
    /// ```
    #[inline]
    pub const fn step(self) -> i64 {
        match self {
            Format::Adr21 => 1,
            Format::Adrp21 => 4096,
            _ => 4,
        }
    }

    /// How many bits the field has.
    const fn bits(self) -> u32 {
        match self {
            Format::Branch26 => 26,
            Format::Branch19 | Format::Ldr19 => 19,
            Format::Branch14 => 14,
            Format::Adr21 | Format::Adrp21 => 21,
        }
    }

    /// The least and the greatest distance, in bytes.
    ///
    /// ```
    /// use vaimalofo::Format;
    ///
    /// const NEAR: core::ops::RangeInclusive<i64> = Format::Branch19.range();
    /// assert_eq!(NEAR, -1048576..=1048572);
    /// assert!(!NEAR.contains(&1048576));
    /// ```
    #[inline]
    pub const fn range(self) -> RangeInclusive<i64> {
        let half = 1 << (self.bits() - 1);
        RangeInclusive::new(-half * self.step(), (half - 1) * self.step())
    }

    /// The instructions that have it.
    ///
    /// ```
    /// assert_eq!(vaimalofo::Format::Branch19.instructions(), "B.cond, CBZ and CBNZ");
    /// ```
    pub const fn instructions(self) -> &'static str {
        match self {
            Format::Branch26 => "B and BL",
            Format::Branch19 => "B.cond, CBZ and CBNZ",
            Format::Branch14 => "TBZ and TBNZ",
            Format::Adr21 => "ADR",
            Format::Adrp21 => "ADRP",
            Format::Ldr19 => "LDR, LDRSW and PRFM (literal)",
        }
    }

    /// The same where any one of them is meant.
    pub(crate) const fn any_instruction(self) -> &'static str {
        match self {
            Format::Branch26 => "B or BL",
            Format::Branch19 => "B.cond, CBZ or CBNZ",
            Format::Branch14 => "TBZ or TBNZ",
            Format::Adr21 => "ADR",
            Format::Adrp21 => "ADRP",
            Format::Ldr19 => "LDR, LDRSW or PRFM (literal)",
        }
    }
}

/// It prints as its instructions.
impl fmt::Display for Format {
    fn fmt(&self, f: &mut fmt::Formatter<'_>) -> fmt::Result {
        f.write_str(self.instructions())
    }
}
