//! The error of the typed functions, and the one way from a refusal and what was asked to it.

use core::fmt;

use crate::{Address, ByteDistance, Format, Label, Place, Refusal, Reg, Width, WordPos};

/// Why a request was turned down, with the operand that it is about. Nothing that was lent has then changed.
///
/// It prints operand and limit, and has the refusal's number:
///
/// ```
/// use vaimalofo::{displacement, Address, ByteDistance, Error, Format, Place, Refusal};
///
/// let (tbz, distance) = (0x36000000, ByteDistance(40000));
/// let error = displacement(&mut [0; 4], Place::at(Address(0)), Format::Branch14, tbz, distance)
///     .unwrap_err();
/// assert_eq!(error, Error::Range { distance, format: Format::Branch14 });
/// assert_eq!(error.to_string(), "distance 40000 is outside -32768..=32764 of TBZ and TBNZ");
/// assert_eq!((error.number(), error.refusal()), (5, Refusal::Range));
/// ```
// A later request may have more of them.
#[derive(Clone, Copy, Debug, PartialEq, Eq, Hash)]
#[non_exhaustive]
pub enum Error {
    /// 15: the base address is not a multiple of 4.
    Unaligned {
        /// The base address of the place.
        base: Address,
    },
    /// 2: no move takes this register.
    Register {
        /// The register, 31.
        register: Reg,
    },
    /// 3: no fields spell the value as a logical immediate.
    NoLogicalImmediate {
        /// The value.
        value: u64,
        /// At which width.
        width: Width,
    },
    /// 3: the fields are not legal, so they decode to nothing.
    IllegalFields {
        /// N.
        n: u32,
        /// S.
        s: u32,
        /// R.
        r: u32,
        /// At which width.
        width: Width,
    },
    /// 3: no 8-bit float expands to the value.
    NoFloat {
        /// The bits of the float.
        value: u64,
        /// At which width: 16, 32 or 64.
        width: u32,
    },
    /// 3: a byte of the value is neither 00 nor FF.
    NoByteMask {
        /// The value.
        value: u64,
    },
    /// 11: the word is not an instruction of the format.
    WrongForm {
        /// The base word, or the one that stands at the place.
        word: u32,
        /// The format.
        format: Format,
    },
    /// 6: the base word already has a bit set in the field. [`retarget`](crate::retarget) is for such words.
    Taken {
        /// The base word.
        word: u32,
        /// The format.
        format: Format,
    },
    /// 4: the distance is not a multiple of the format's step.
    Step {
        /// The distance, also where a target was asked for.
        distance: ByteDistance,
        /// The format.
        format: Format,
    },
    /// 5: the distance is outside the format's range.
    Range {
        /// The distance, also where a target was asked for.
        distance: ByteDistance,
        /// The format.
        format: Format,
    },
    /// 8: the words do not fit from the position on, or the position lies past the end.
    NoRoom {
        /// The position of the place.
        position: WordPos,
        /// How many whole words the run has.
        words: usize,
    },
    /// 7: no format has this number, which stands in a record that the host wrote.
    NoFormat {
        /// The number.
        format: u32,
    },
    /// 12: there is no such label.
    NoLabel {
        /// The label.
        label: Label,
        /// How many there are.
        labels: usize,
    },
    /// 12: a word waits for a label that is not bound.
    Unbound {
        /// The label.
        label: Label,
    },
    /// 13: the label is bound already.
    Twice {
        /// The label.
        label: Label,
        /// Where it is bound.
        position: WordPos,
    },
    /// 8: the label is bound, or was to be bound, past the end of the run.
    LabelPastEnd {
        /// The label.
        label: Label,
        /// The position.
        position: WordPos,
        /// How many words the run has.
        words: usize,
    },
    /// 14: more uses than the sheet may hold.
    Full {
        /// How many were to wait.
        uses: usize,
        /// How many may.
        room: usize,
    },
    /// 16: another use waits for the same word.
    Again {
        /// The word's position.
        position: WordPos,
        /// The label that the other one is of.
        label: Label,
    },
}

impl Error {
    /// The refusal that it is, without operands.
    ///
    /// ```
    /// use vaimalofo::{mov, Address, Place, Refusal, Reg};
    ///
    /// let error = mov(&mut [0; 4], Place::at(Address(0)), 0, Reg::R31).unwrap_err();
    /// assert_eq!(error.refusal(), Refusal::Register);
    /// ```
    pub const fn refusal(&self) -> Refusal {
        match self {
            Error::Unaligned { .. } => Refusal::Unaligned,
            Error::Register { .. } => Refusal::Register,
            Error::NoLogicalImmediate { .. }
            | Error::IllegalFields { .. }
            | Error::NoFloat { .. }
            | Error::NoByteMask { .. } => Refusal::NoField,
            Error::WrongForm { .. } => Refusal::WrongForm,
            Error::Taken { .. } => Refusal::Taken,
            Error::Step { .. } => Refusal::Step,
            Error::Range { .. } => Refusal::Range,
            Error::NoRoom { .. } | Error::LabelPastEnd { .. } => Refusal::NoRoom,
            Error::NoFormat { .. } => Refusal::Unknown,
            Error::NoLabel { .. } | Error::Unbound { .. } => Refusal::Label,
            Error::Twice { .. } => Refusal::Twice,
            Error::Full { .. } => Refusal::Full,
            Error::Again { .. } => Refusal::Again,
        }
    }

    /// The refusal's number.
    ///
    /// ```
    /// use vaimalofo::{logical_fields, Width};
    ///
    /// assert_eq!(logical_fields(5, Width::W64).unwrap_err().number(), 3);
    /// ```
    pub const fn number(&self) -> u8 {
        self.refusal().number()
    }
}

impl fmt::Display for Error {
    fn fmt(&self, f: &mut fmt::Formatter<'_>) -> fmt::Result {
        match *self {
            Error::Unaligned { base: Address(base) } => {
                write!(f, "base address {base:#x} is not a multiple of 4")
            }
            Error::Register { register } => {
                write!(f, "register {} is none of a move, which takes 0 to 30", register.number())
            }
            Error::NoLogicalImmediate { value, width } => {
                write!(f, "{value:#x} is no logical immediate at width {}", width.bits())
            }
            Error::IllegalFields { n, s, r, width } => {
                write!(f, "N {n}, S {s}, R {r} are no fields of width {}", width.bits())
            }
            Error::NoFloat { value, width } => {
                write!(f, "{value:#x} is no 8-bit float at width {width}")
            }
            Error::NoByteMask { value } => {
                write!(f, "{value:#x} is no byte mask, whose bytes are 00 or FF")
            }
            Error::WrongForm { word, format } => {
                write!(f, "word {word:#010x} is no {}", format.any_instruction())
            }
            Error::Taken { word, format } => {
                write!(f, "word {word:#010x} has bits set in the field of {format}")
            }
            Error::Step { distance: ByteDistance(by), format } => {
                let step = format.step();
                write!(f, "distance {by} is not a multiple of {step}, the step of {format}")
            }
            Error::Range { distance: ByteDistance(by), format } => {
                write!(f, "distance {by} is outside {:?} of {format}", format.range())
            }
            Error::NoRoom { position: WordPos(position), words } => {
                let s = plural(words);
                write!(f, "no room at position {position} of a run of {words} word{s}")
            }
            Error::NoFormat { format } => write!(f, "{format} is no format, which are 0 to 5"),
            Error::NoLabel { label: Label(label), labels } => {
                write!(f, "label {label} is none of the {labels} from 0 on")
            }
            Error::Unbound { label: Label(label) } => write!(f, "label {label} is not bound"),
            Error::Twice { label: Label(label), position: WordPos(position) } => {
                write!(f, "label {label} is bound already, at position {position}")
            }
            Error::LabelPastEnd { label: Label(label), position: WordPos(position), words } => {
                let s = plural(words);
                write!(f, "label {label} at position {position} is past the end of a run of {words} word{s}")
            }
            Error::Full { uses, room } => {
                let s = plural(room);
                write!(f, "the sheet has room for {room} use{s}, and {uses} were to wait")
            }
            Error::Again { position: WordPos(position), label: Label(label) } => {
                write!(f, "the word at position {position} waits for label {label} already")
            }
        }
    }
}

impl core::error::Error for Error {}

/// What more than one of a thing is written with.
const fn plural(count: usize) -> &'static str {
    if count == 1 {
        ""
    } else {
        "s"
    }
}

/// The operands of a call, so far as a refusal may be about them.
#[derive(Clone, Copy)]
pub(crate) enum Operands {
    Move(Reg),
    Value(u64, Width),
    Fields(u32, u32, u32, Width),
    Float(u64, u32),
    ByteMask(u64),
    Displacement(Format, u32, ByteDistance),
}

/// The error of a refusal of these operands.
#[cold]
pub(crate) fn refused(refusal: Refusal, operands: Operands) -> Error {
    match (refusal, operands) {
        (Refusal::Register, Operands::Move(register)) => Error::Register { register },
        (Refusal::NoField, Operands::Value(value, width)) => {
            Error::NoLogicalImmediate { value, width }
        }
        (Refusal::NoField, Operands::Fields(n, s, r, width)) => {
            Error::IllegalFields { n, s, r, width }
        }
        (Refusal::NoField, Operands::Float(value, width)) => Error::NoFloat { value, width },
        (Refusal::NoField, Operands::ByteMask(value)) => Error::NoByteMask { value },
        (Refusal::WrongForm, Operands::Displacement(format, word, _)) => {
            Error::WrongForm { word, format }
        }
        (Refusal::Taken, Operands::Displacement(format, word, _)) => Error::Taken { word, format },
        (Refusal::Step, Operands::Displacement(format, _, distance)) => {
            Error::Step { distance, format }
        }
        (Refusal::Range, Operands::Displacement(format, _, distance)) => {
            Error::Range { distance, format }
        }
        _ => unreachable!("no entry gives {refusal} to operands of these types"),
    }
}

/// The same where a call writes: it may be about the place.
#[cold]
pub(crate) fn refused_at(refusal: Refusal, bytes: &[u8], at: Place, operands: Operands) -> Error {
    match refusal {
        Refusal::Unaligned => Error::Unaligned { base: at.base },
        Refusal::NoRoom => Error::NoRoom { position: at.position, words: bytes.len() / 4 },
        _ => refused(refusal, operands),
    }
}
