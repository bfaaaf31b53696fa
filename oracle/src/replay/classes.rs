//! The classes of difference between the Rust and document 01.

use super::answer::{Answer, Said};
use super::by_rust::Heard;
use super::departures;
use super::request::{Request, entry::*};
use crate::document::{No, displacements};

#[derive(Clone, Copy, Debug, PartialEq, Eq, PartialOrd, Ord)]
pub enum Class {
    // The known departures of document 01.
    /// A move of all ones: the Rust writes no word; here one MOVN.
    AllOnes,
    /// A value to FFFFFFFF spelled by MOVN: the Rust's base has bit 31 set.
    MovnUpperHalf,
    /// A move to register 31: the Rust spells the zero register; here 2.
    MoveRegister31,
    /// A patchable move to a register above 30: the Rust masks it; here 2.
    PatchableRegister,
    /// A distance out of range: the Rust cuts it; here 5.
    DistanceCut,
    /// A base with field bits set: the Rust ors, or refuses a distance off the step; here 6.
    BaseOred,
    /// LDR 19: the Rust splits the field as for ADR (so at X +4, W +8, LDRSW +8 and S +8).
    LdrSplit,
    /// An immediate target: the Rust counts from four bytes on.
    TargetFromFour,
    /// encode_lmh and pick_fp_opcode write outputs before some refusals; here none.
    WritesBeforeRefusal,
    /// Floats and byte masks: the Rust encodes untested values; here 3.
    Untested,

    // Edges that document 01's list of departures does not name.
    /// Logical fields at a width other than 32 and 64: the Rust goes on; here 1.
    LogicalWidth,
    /// A move to a register above 31: the number runs into the immediate; here 2.
    MoveRegisterAbove31,
    /// A logical word with a register above 31: the Rust masks it; here 2.
    LogicalRegister,
    /// The shift map above 15: the Rust panics; here 7.
    ShiftMapAbove15,
    /// pick_fp_opcode at a row above 5: the Rust panics, or refuses by size first; here 7.
    PickRowAbove5,
    /// A target whose distance does not fit 64 signed bits: the Rust overflows; here refused.
    TargetOverflow,
    /// Element 7, which cannot be made in the Rust; here size op FF and pick_fp_opcode 3.
    Element7,
    /// A mask of more than 64 bits: the Rust's arithmetic overflows; here all bits are set.
    MaskAbove64,

    // What document 02's request h refuses: there the equality with the Rust is narrowed.
    /// A base that is no instruction of the format: the Rust places the distance all the same, or
    /// refuses a distance off the step; here 11.
    WrongForm,

    // What document 02's request f takes.
    /// An ADRP to a target inside a page: the Rust refuses it; here the word of its page, or 5 or 8.
    PageTarget,

    // What document 02's request g refuses.
    /// A base address that is no multiple of 4: the Rust has none, and does what it does at any
    /// other, which is to write, to refuse by another number or to panic; here 15.
    Unaligned,

    /// The Rust has no such entry, or cannot be asked this (no room in a lent run, for one).
    Added,
}

use Class::*;

/// The class of a request at which the Rust does not answer as document 01, if it is a known one:
/// the Rust must do what the classes say, to the last bit of the run, the request must be one that
/// the class is about, and document 01's answer the class's.
pub fn class(r: &Request, document: &Answer, rust: &Heard) -> Option<Class> {
    if *rust != departures::expected(r) {
        return None;
    }
    let no = |number| document.is_no(number);
    let known = |holds: bool, class| holds.then_some(class);
    match (r.entry, rust) {
        (SIZE_OP, Heard::Lacks) if r.low(4) == 7 => Some(Element7),
        (PICK_FP, Heard::Lacks) if r.low(1) == 7 => Some(Element7),
        (_, Heard::Lacks) => Some(Added),
        _ if !r.place().aligned() => known(no(15), Unaligned),
        (LSB_MASK, _) => known(*document == Answer::wide(u64::MAX), MaskAbove64),
        (SHIFT_MAP, _) => known(r.low(0) > 15 && no(7), ShiftMapAbove15),
        (ENCODE_LOGICAL, _) => known(wrong(r.low(1)) && no(1), LogicalWidth),
        (LOGICAL_WORD, _) if wrong(r.low(2)) => known(no(1), LogicalWidth),
        (LOGICAL_WORD, _) => known(r.low(3).max(r.low(4)) > 31 && no(2), LogicalRegister),
        (MOVE, _) => move_class(r, document),
        (PATCHABLE_MOVE, _) => known(r.low(2) > 30 && no(2), PatchableRegister),
        (DISP_IMM | DISP_TARGET, _) if wrong_form(r) => known(no(11), WrongForm),
        (DISP_IMM, _) => disp_class(r, document),
        (DISP_TARGET, _) => target_class(r, document),
        (ENCODE_FLOAT | ENCODE_BYTE_MASK, _) => known(no(3), Untested),
        (LMH | PICK_FP, Heard::Spoils(number, _)) => known(no(*number), WritesBeforeRefusal),
        (PICK_FP, _) => known(no(7), PickRowAbove5),
        _ => None,
    }
}

/// Whether a width is none that a logical immediate has.
fn wrong(width: u32) -> bool {
    !matches!(width, 32 | 64)
}

fn move_class(r: &Request, document: &Answer) -> Option<Class> {
    match (r.args[0], r.low(1)) {
        (_, 31) => document.is_no(2).then_some(MoveRegister31),
        (_, 32..) => document.is_no(2).then_some(MoveRegisterAbove31),
        (u64::MAX, _) => (document.is_ok() || document.is_no(8)).then_some(AllOnes),
        (value, _) => (value <= 0xFFFF_FFFF && document.is_ok()).then_some(MovnUpperHalf),
    }
}

/// Whether a base is no instruction of its format.
fn wrong_form(r: &Request) -> bool {
    displacements::has_form(r.low(0), r.low(1)) == Ok(false)
}

fn disp_class(r: &Request, document: &Answer) -> Option<Class> {
    match document.said {
        Said::No(6) => Some(BaseOred),
        Said::No(5) => Some(DistanceCut),
        _ => (r.low(0) == 5 && document.is_ok()).then_some(LdrSplit),
    }
}

fn target_class(r: &Request, document: &Answer) -> Option<Class> {
    if departures::overflows(r) {
        return matches!(document.said, Said::No(4..=6)).then_some(TargetOverflow);
    }
    let from_four = departures::from_four(r);
    match displacements::disp_word(r.low(0), r.low(1), from_four) {
        Err(No(6)) => document.is_no(6).then_some(BaseOred),
        Err(No(5)) if document.is_no(5) => Some(DistanceCut),
        Err(No(4)) => {
            let taken = document.is_ok() || matches!(document.said, Said::No(5 | 8));
            (r.low(0) == 4 && taken).then_some(PageTarget)
        }
        _ => {
            let own = displacements::distance(r.low(0), r.args[2], r.place().address());
            let answered = document.is_ok() || document.is_no(5);
            (from_four != own && answered).then_some(TargetFromFour)
        }
    }
}
