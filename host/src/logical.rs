//! Logical immediates: their fields, the words that have them, and what fields decode to.

use crate::error::{refused, refused_at, Operands};
use crate::{raw, Error, Place, Reg, Width};

/// The fields N, S and R of a logical immediate, and the length of its element.
///
/// ```
/// use vaimalofo::{logical_fields, Fields, Width};
///
/// let Fields { n, s, r, length } = logical_fields(0x8181818181818181, Width::W64)?;
/// assert_eq!((n, s, r), (0, 49, 1));
/// assert_eq!(format!("repeats every {length} bits"), "repeats every 8 bits");
/// # Ok::<(), vaimalofo::Error>(())
/// ```
#[derive(Clone, Copy, Debug, PartialEq, Eq, Hash)]
pub struct Fields {
    /// 1 only for an element of 64 bits.
    pub n: u32,
    /// The length of the run less 1, below a prefix that tells the element's length.
    pub s: u32,
    /// How far the run is turned to the right; below the element's length.
    pub r: u32,
    /// The element's length in bits: 2, 4, 8, 16, 32 or 64. The value repeats every so many bits; N and S tell how many.
    pub length: u32,
}

/// A logical operation. Arm has no fifth one with an immediate, so a match may name them all.
///
/// ```
/// use vaimalofo::LogicalOp;
///
/// assert_eq!(LogicalOp::Ands.number(), 3);
/// assert_eq!(LogicalOp::from_number(2), Some(LogicalOp::Eor));
/// ```
#[derive(Clone, Copy, Debug, PartialEq, Eq, PartialOrd, Ord, Hash)]
#[repr(u32)]
pub enum LogicalOp {
    /// AND.
    And = 0,
    /// ORR.
    Orr = 1,
    /// EOR.
    Eor = 2,
    /// ANDS, which sets the flags.
    Ands = 3,
}

impl LogicalOp {
    /// All of them, in the order of their numbers.
    ///
    /// ```
    /// use vaimalofo::LogicalOp;
    ///
    /// assert_eq!(LogicalOp::ALL.map(LogicalOp::number), [0, 1, 2, 3]);
    /// ```
    pub const ALL: [LogicalOp; 4] =
        [LogicalOp::And, LogicalOp::Orr, LogicalOp::Eor, LogicalOp::Ands];

    /// The number that stands for it at the C entries and in [`raw`].
    ///
    /// ```
    /// assert_eq!(vaimalofo::LogicalOp::And.number(), 0);
    /// ```
    #[inline]
    pub const fn number(self) -> u32 {
        self as u32
    }

    /// The operation of a number up to 3.
    ///
    /// ```
    /// use vaimalofo::LogicalOp;
    ///
    /// assert_eq!(LogicalOp::from_number(1), Some(LogicalOp::Orr));
    /// assert_eq!(LogicalOp::from_number(4), None);
    /// ```
    #[inline]
    pub const fn from_number(number: u32) -> Option<LogicalOp> {
        match number {
            0..=3 => Some(LogicalOp::ALL[number as usize]),
            _ => None,
        }
    }
}

/// A logical instruction with an immediate: which one, at which width, on which registers. 31 is the zero register as `rn`, and as `rd`
/// the stack pointer, but for ANDS the zero register.
///
/// ```
/// use vaimalofo::{Logical, LogicalOp, Reg, Width};
///
/// let and = Logical { operation: LogicalOp::And, width: Width::W64, rn: Reg::X1, rd: Reg::X0 };
/// assert_eq!(Logical { operation: LogicalOp::Orr, ..and }.rn, Reg::X1);
/// ```
///
/// A format is no operation:
///
/// ```compile_fail,E0308
/// use vaimalofo::{Format, Logical, Reg, Width};
///
/// let eor = Logical { operation: Format::Branch14, width: Width::W64, rn: Reg::X1, rd: Reg::X0 };
/// ```
#[derive(Clone, Copy, Debug, PartialEq, Eq, Hash)]
pub struct Logical {
    /// What is done.
    pub operation: LogicalOp,
    /// At which width.
    pub width: Width,
    /// The register that is read.
    pub rn: Reg,
    /// The register that is written.
    pub rd: Reg,
}

/// The fields that spell a value as a logical immediate, and after how many bits it repeats; at width 32 the higher bits are ignored.
///
/// # Errors
/// [`Error::NoLogicalImmediate`] where no fields decode to the value.
///
/// ```
/// use vaimalofo::{logical_fields, Error, Fields, Width};
///
/// assert_eq!(logical_fields(0xFF, Width::W64), Ok(Fields { n: 1, s: 7, r: 0, length: 64 }));
/// assert_eq!(logical_fields(0x1000000FF, Width::W32), Ok(Fields { n: 0, s: 7, r: 0, length: 32 }));
/// let error = logical_fields(5, Width::W64).unwrap_err();
/// assert_eq!(error, Error::NoLogicalImmediate { value: 5, width: Width::W64 });
/// assert_eq!(error.to_string(), "0x5 is no logical immediate at width 64");
/// ```
#[inline]
pub fn logical_fields(value: u64, width: Width) -> Result<Fields, Error> {
    raw::logical_fields(value, width.bits())
        .map_err(|refusal| refused(refusal, Operands::Value(value, width)))
}

/// Writes the word of AND, ORR, EOR or ANDS with a value as its immediate.
///
/// # Errors
/// [`Error::Unaligned`], [`Error::NoLogicalImmediate`] where no fields spell the value, then [`Error::NoRoom`].
///
/// ```
/// use vaimalofo::{logical_word, words, Address, Error, Logical, LogicalOp, Place, Reg, Width, WordPos};
///
/// let and = Logical { operation: LogicalOp::And, width: Width::W64, rn: Reg::X1, rd: Reg::X0 };
/// let mut code = [0; 4];
/// let start = Place::at(Address(0));
/// let end = logical_word(&mut code, start, and, 0xFF)?;
/// assert_eq!(end.position, WordPos(1));
/// assert!(words(&code).eq([0x92401C20]));
/// assert_eq!(logical_word(&mut code, start, and, 5).unwrap_err().number(), 3);
/// assert_eq!(logical_word(&mut code, end, and, 0xFF).unwrap_err().number(), 8);
/// assert_eq!(logical_word(&mut code, Place::at(Address(3)), and, 5).unwrap_err().number(), 15);
/// # Ok::<(), Error>(())
/// ```
#[inline]
pub fn logical_word(
    bytes: &mut [u8],
    at: Place,
    instruction: Logical,
    value: u64,
) -> Result<Place, Error> {
    let Logical { operation, width, rn, rd } = instruction;
    let (operation, bits) = (operation.number(), width.bits());
    raw::logical_word(bytes, at, operation, value, bits, rn.number(), rd.number())
        .map_err(|refusal| refused_at(refusal, bytes, at, Operands::Value(value, width)))
}

/// The value that fields decode to, as Arm's DecodeBitMasks has it; at width 32 the higher bits are 0. R need not be below the
/// element's length.
///
/// # Errors
/// [`Error::IllegalFields`] where Arm leaves them undefined, for N 1 at width 32, and where N is above 1 or S or R above 63.
///
/// ```
/// use vaimalofo::{decode_logical, Error, Width};
///
/// assert_eq!(decode_logical(0, 60, 5, Width::W64), Ok(0xAAAAAAAAAAAAAAAA));
/// assert_eq!(decode_logical(0, 7, 40, Width::W32), Ok(0xFF000000));
/// let error = decode_logical(1, 7, 0, Width::W32).unwrap_err();
/// assert_eq!(error, Error::IllegalFields { n: 1, s: 7, r: 0, width: Width::W32 });
/// assert_eq!(error.to_string(), "N 1, S 7, R 0 are no fields of width 32");
/// ```
#[inline]
pub fn decode_logical(n: u32, s: u32, r: u32, width: Width) -> Result<u64, Error> {
    raw::decode_logical(n, s, r, width.bits())
        .map_err(|refusal| refused(refusal, Operands::Fields(n, s, r, width)))
}

/// The fields that [`logical_fields`] gives for the value that these decode to: the same N and S, and R below the element's length.
///
/// # Errors
/// [`Error::IllegalFields`], where [`decode_logical`] gives it.
///
/// ```
/// use vaimalofo::{normalise_logical, Fields, Width};
///
/// let normal = Fields { n: 0, s: 60, r: 1, length: 2 };
/// assert_eq!(normalise_logical(0, 60, 5, Width::W64), Ok(normal));
/// assert_eq!(normalise_logical(0, 60, 1, Width::W64), Ok(normal));
/// assert_eq!(normalise_logical(0, 62, 0, Width::W64).unwrap_err().number(), 3);
/// ```
#[inline]
pub fn normalise_logical(n: u32, s: u32, r: u32, width: Width) -> Result<Fields, Error> {
    raw::normalise_logical(n, s, r, width.bits())
        .map_err(|refusal| refused(refusal, Operands::Fields(n, s, r, width)))
}
