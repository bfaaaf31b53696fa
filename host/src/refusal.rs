//! The refusals and their numbers.

use core::error::Error;
use core::fmt;

/// Why a request was turned down, by the numbers of the documents. Nothing that was lent has then changed. The functions of
/// [`raw`](crate::raw) answer it, and [`Error::refusal`](crate::Error::refusal) gives it of an error.
///
/// It prints as its number and the event:
///
/// ```
/// use vaimalofo::Refusal;
///
/// assert_eq!(Refusal::Step.number(), 4);
/// assert_eq!(
///     Refusal::Step.to_string(),
///     "refusal 4: the distance is not a multiple of the format's step"
/// );
/// ```
// A later request may have more of them.
#[derive(Clone, Copy, Debug, PartialEq, Eq, Hash)]
#[non_exhaustive]
#[repr(u8)]
pub enum Refusal {
    /// 1: the width or register size is not one that the entry names.
    Width = 1,
    /// 2: a register number above 30 (moves) or above 31 (logical words).
    Register = 2,
    /// 3: no field spells the value, or the fields are not legal.
    NoField = 3,
    /// 4: the distance is not a multiple of the format's step.
    Step = 4,
    /// 5: the distance is outside the format's range.
    Range = 5,
    /// 6: the base word already has a bit set in the field.
    Taken = 6,
    /// 7: an unknown format or operation number.
    Unknown = 7,
    /// 8: the words do not fit from the position on, or the position lies past the end.
    NoRoom = 8,
    /// 9: an element index above its limit. No function of this package gives it.
    Index = 9,
    /// 10: the base opcode is zero. No function of this package gives it.
    ZeroBase = 10,
    /// 11: the base word is not an instruction of this format.
    WrongForm = 11,
    /// 12: there is no such label, or, at finishing, it is not bound.
    Label = 12,
    /// 13: the label is bound already.
    Twice = 13,
    /// 14: the sheet is full, or the count is above what the sheet may hold.
    Full = 14,
    /// 15: the base address is not a multiple of 4.
    Unaligned = 15,
    /// 16: an earlier use that waits names the same word.
    Again = 16,
}

impl Refusal {
    /// All of them, in the order of their numbers.
    ///
    /// ```
    /// use vaimalofo::Refusal;
    ///
    /// assert_eq!(Refusal::ALL.first(), Some(&Refusal::Width));
    /// assert!(Refusal::ALL.iter().all(|one| Refusal::from_number(one.number()) == Some(*one)));
    /// ```
    pub const ALL: &'static [Refusal] = &[
        Refusal::Width,
        Refusal::Register,
        Refusal::NoField,
        Refusal::Step,
        Refusal::Range,
        Refusal::Taken,
        Refusal::Unknown,
        Refusal::NoRoom,
        Refusal::Index,
        Refusal::ZeroBase,
        Refusal::WrongForm,
        Refusal::Label,
        Refusal::Twice,
        Refusal::Full,
        Refusal::Unaligned,
        Refusal::Again,
    ];

    /// The number that stands for it at the C entries.
    ///
    /// ```
    /// assert_eq!(vaimalofo::Refusal::NoRoom.number(), 8);
    /// ```
    pub const fn number(self) -> u8 {
        self as u8
    }

    /// The refusal of a number: 1 to 16. No other number is one's.
    ///
    /// ```
    /// use vaimalofo::Refusal;
    ///
    /// assert_eq!(Refusal::from_number(15), Some(Refusal::Unaligned));
    /// assert_eq!(Refusal::from_number(17), None);
    /// ```
    pub const fn from_number(number: u8) -> Option<Refusal> {
        match number {
            1..=16 => Some(Refusal::ALL[number as usize - 1]),
            _ => None,
        }
    }

    /// The event, in words.
    const fn event(self) -> &'static str {
        match self {
            Refusal::Width => "the width or register size is not one that the entry names",
            Refusal::Register => {
                "the register number is above 30 (moves) or above 31 (logical words)"
            }
            Refusal::NoField => "no field spells the value, or the fields are not legal",
            Refusal::Step => "the distance is not a multiple of the format's step",
            Refusal::Range => "the distance is outside the format's range",
            Refusal::Taken => "the base word already has a bit set in the field",
            Refusal::Unknown => "the format or operation number is unknown",
            Refusal::NoRoom => {
                "the words do not fit from the position on, or the position lies past the end"
            }
            Refusal::Index => "the element index is above its limit",
            Refusal::ZeroBase => "the base opcode is zero",
            Refusal::WrongForm => "the base word is not an instruction of this format",
            Refusal::Label => "there is no such label, or at finishing it is not bound",
            Refusal::Twice => "the label is bound already",
            Refusal::Full => "the sheet is full, or the count is above what it may hold",
            Refusal::Unaligned => "the base address is not a multiple of 4",
            Refusal::Again => "an earlier use that waits names the same word",
        }
    }
}

impl fmt::Display for Refusal {
    fn fmt(&self, f: &mut fmt::Formatter<'_>) -> fmt::Result {
        write!(f, "refusal {}: {}", self.number(), self.event())
    }
}

impl Error for Refusal {}
