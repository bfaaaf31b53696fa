//! General registers and their widths, and asmkit's checks of ids and conditions.

use crate::raw;

/// The width of an operation, or the size of a register.
///
/// ```
/// use vaimalofo::Width;
///
/// assert_eq!(Width::W32.bits(), 32);
/// assert_eq!(Width::from_bits(64), Some(Width::W64));
/// ```
#[derive(Clone, Copy, Debug, PartialEq, Eq, PartialOrd, Ord, Hash)]
pub enum Width {
    /// 32 bits: W registers.
    W32,
    /// 64 bits: X registers.
    W64,
}

impl Width {
    /// How many bits: 32 or 64.
    ///
    /// ```
    /// assert_eq!(vaimalofo::Width::W64.bits(), 64);
    /// ```
    #[inline]
    pub const fn bits(self) -> u32 {
        match self {
            Width::W32 => 32,
            Width::W64 => 64,
        }
    }

    /// The width of so many bits; only 32 and 64 have one.
    ///
    /// ```
    /// use vaimalofo::Width;
    ///
    /// assert_eq!(Width::from_bits(32), Some(Width::W32));
    /// assert_eq!(Width::from_bits(16), None);
    /// ```
    #[inline]
    pub const fn from_bits(bits: u32) -> Option<Width> {
        match bits {
            32 => Some(Width::W32),
            64 => Some(Width::W64),
            _ => None,
        }
    }
}

/// A general register: X0 to X30, and 31, which only logical words take. A width says whether X or W is meant.
///
/// ```
/// use vaimalofo::Reg;
///
/// assert_eq!(Reg::new(30), Some(Reg::X30));
/// assert_eq!(Reg::R31.number(), 31);
/// // asmkit's id of the zero register, 63, is none: it is 31 here.
/// assert_eq!(Reg::new(63), None);
/// ```
#[derive(Clone, Copy, Debug, PartialEq, Eq, PartialOrd, Ord, Hash)]
pub struct Reg(u8);

macro_rules! registers {
    ($($name:ident $number:literal),*) => {
        $(
            #[doc = concat!("Register ", $number, ".")]
            pub const $name: Reg = Reg($number);
        )*
    };
}

impl Reg {
    registers! {
        X0 0, X1 1, X2 2, X3 3, X4 4, X5 5, X6 6, X7 7, X8 8, X9 9, X10 10, X11 11, X12 12, X13 13, X14 14, X15 15, X16 16, X17 17,
        X18 18, X19 19, X20 20, X21 21, X22 22, X23 23, X24 24, X25 25, X26 26, X27 27, X28 28, X29 29, X30 30
    }

    /// The 31 of logical words: the zero register where it is read, and where it is written the stack pointer, but for ANDS the zero
    /// register. No move takes it.
    pub const R31: Reg = Reg(31);

    /// The register of a number up to 31.
    ///
    /// ```
    /// use vaimalofo::Reg;
    ///
    /// assert_eq!(Reg::new(3), Some(Reg::X3));
    /// assert_eq!(Reg::new(32), None);
    /// ```
    #[inline]
    pub const fn new(number: u32) -> Option<Reg> {
        match number {
            0..=31 => Some(Reg(number as u8)),
            _ => None,
        }
    }

    /// Its number, 0 to 31.
    ///
    /// ```
    /// assert_eq!(vaimalofo::Reg::X17.number(), 17);
    /// ```
    #[inline]
    pub const fn number(self) -> u32 {
        self.0 as u32
    }
}

/// asmkit's test of the id of a general register: whether it is below 31, or the one that is named as high besides.
///
/// ```
/// use vaimalofo::check_gp_id;
///
/// // 63 is asmkit's id of the zero register, 31 that of the stack pointer.
/// assert!(check_gp_id(30, 63) && check_gp_id(63, 63));
/// assert!(!check_gp_id(31, 63));
/// ```
#[inline]
pub fn check_gp_id(id: u32, high: u32) -> bool {
    raw::check_gp_id(id, high)
}

/// asmkit's test of the id of a vector register: whether it is below 32.
///
/// ```
/// use vaimalofo::check_vec_id;
///
/// assert!(check_vec_id(31));
/// assert!(!check_vec_id(32));
/// ```
#[inline]
pub fn check_vec_id(id: u32) -> bool {
    raw::check_vec_id(id)
}

/// The condition field of asmkit's number of a condition: (cond - 2) modulo 16, for every number. asmkit counts AL as 0, NA as 1, EQ as
/// 2 and on from there; the field is Arm's number of the condition.
///
/// ```
/// use vaimalofo::cond_code_to_opcode_field;
///
/// let (al, eq, le) = (0, 2, 15);
/// assert_eq!([al, eq, le].map(cond_code_to_opcode_field), [14, 0, 13]);
/// ```
#[inline]
pub fn cond_code_to_opcode_field(cond: u32) -> u32 {
    raw::cond_field(cond)
}
