//! What the Rust does at a request.

use super::answer::Answer;
use super::request::{Request, entry::*};
use crate::document::logical::{self, Fields};
use crate::document::{No, displacements};
use crate::rust::{self, Panics};

#[derive(Clone, Debug, PartialEq, Eq)]
pub enum Heard {
    /// It answers; a refusal has the number that document 01 gives to its reason.
    Says(Answer),
    /// It refuses with this number, but has written these outputs before.
    Spoils(u32, Vec<u32>),
    /// Its arithmetic overflows: it answers so where it wraps around, and else panics.
    Overflows(Option<Answer>),
    Panics,
    /// It has no such entry, or cannot be asked this: there is no room in the run, for one.
    Lacks,
}

use Heard::{Lacks, Overflows, Says, Spoils};

impl Heard {
    /// An answer with the low bits of a target, which the Rust has no place for: as the run and the
    /// position, they are the harness's, put beside the Rust's own word.
    pub fn carrying(self, low: Option<u64>) -> Self {
        match self {
            Says(answer) => Says(answer.carrying(low)),
            other => other,
        }
    }

    /// Fields, or refusal 3 where none were found. The length behind them, which the Rust has no
    /// place for either, is Arm's for these very N and S, whatever was asked.
    pub fn fields(found: Option<Fields>) -> Self {
        let answer = |[n, s, r]: Fields| {
            let length = logical::element_length(n, s);
            Answer::numbers(&[n, s, r].map(u64::from)).carrying(length.map(u64::from))
        };
        Says(found.map_or(Answer::no(3), answer))
    }
}

pub fn heard(r: &Request) -> Heard {
    match r.entry / 16 {
        1 => module_1(r),
        2 => module_2(r),
        3 => module_3(r),
        5 | 6 => modules_5_and_6(r),
        7 => module_7(r),
        8 => module_8(r),
        9 => module_9(r),
        _ => Lacks,
    }
}

fn yes_no(yes: bool) -> Heard {
    Says(Answer::yes_no(yes))
}

fn number(number: impl Into<u64>) -> Heard {
    Says(Answer::numbers(&[number.into()]))
}

/// An answer made of what the original gave, unless it panicked.
fn unless_panics<T>(given: Result<T, Panics>, answer: impl FnOnce(T) -> Heard) -> Heard {
    given.map_or(Heard::Panics, answer)
}

/// The run of argument i with the original's words in it, from the position in the next argument
/// on: it has no lent run of its own, and no base address.
fn placed(r: &Request, i: usize, words: &[u32]) -> Heard {
    let mut run = r.run(i);
    let end = r.args[i + 1].saturating_add(words.len() as u64);
    if end > run.len() as u64 {
        return Lacks;
    }
    run[r.args[i + 1] as usize..end as usize].copy_from_slice(words);
    Says(Answer::wrote(Ok(end), run))
}

/// A refusal with the run of argument i as it was.
fn refused(r: &Request, i: usize, number: u32) -> Heard {
    Says(Answer::wrote(Err(No(number)), r.run(i)))
}

fn module_1(r: &Request) -> Heard {
    match r.entry {
        BIT_TEST => yes_no(rust::bit_test(r.low(0), r.low(1))),
        LSB_MASK if r.low(0) <= 64 => {
            unless_panics(rust::lsb_mask(r.low(0)), |mask| Says(Answer::wide(mask)))
        }
        // Its subtraction from 64 overflows.
        LSB_MASK => Overflows(rust::lsb_mask(r.low(0)).ok().map(Answer::wide)),
        _ => Lacks,
    }
}

fn module_2(r: &Request) -> Heard {
    let [a, b, c, d] = [r.low(0), r.low(1), r.low(2), r.low(3)];
    match r.entry {
        CHECK_GP_ID => yes_no(rust::check_gp_id(a, b)),
        CHECK_GP_ID2 => yes_no(rust::check_gp_id2(a, b, c)),
        CHECK_GP_ID3 => yes_no(rust::check_gp_id3(a, b, c, d)),
        CHECK_VEC_ID => yes_no(rust::check_vec_id(a)),
        CHECK_VEC_ID2 => yes_no(rust::check_vec_id2(a, b)),
        CHECK_VEC_ID3 => yes_no(rust::check_vec_id3(a, b, c)),
        CONDITION_FIELD => number(rust::cond_code_to_opcode_field(a)),
        SHIFT_MAP => unless_panics(rust::shift_op_to_ld_st_op(a), number),
        _ => Lacks,
    }
}

fn module_3(r: &Request) -> Heard {
    match r.entry {
        ENCODE_LOGICAL => {
            unless_panics(rust::encode_logical_imm(r.args[0], r.low(1)), Heard::fields)
        }
        LOGICAL_WORD => {
            // The original has its base words, and the registers' places, in files that are not
            // here: both are document 01's.
            let Some(base) = logical::base(r.low(0), r.low(2)) else {
                return Lacks;
            };
            let found = rust::encode_logical_imm(r.args[1], r.low(2));
            unless_panics(found, |fields| match fields {
                Some(fields) => {
                    placed(r, 5, &[rust::logical_word(base, fields, r.low(3), r.low(4))])
                }
                None => refused(r, 5, 3),
            })
        }
        _ => Lacks,
    }
}

fn modules_5_and_6(r: &Request) -> Heard {
    match r.entry {
        MOVE => placed(r, 2, &rust::encode_mov_sequence64(r.args[0], r.low(1), 1)),
        COUNT_ZERO_HALF_WORDS => number(rust::count_zero_half_words_64(r.args[0])),
        PATCHABLE_MOVE => {
            let is_64bit = match r.low(1) {
                32 => false,
                64 => true,
                _ => return Lacks,
            };
            placed(r, 3, &rust::encode_patchable_mov_imm(r.args[0], is_64bit, r.low(2)))
        }
        _ => Lacks,
    }
}

fn module_7(r: &Request) -> Heard {
    let emitted = |word: Option<u32>| match word {
        Some(word) => placed(r, 3, &[word]),
        None => refused(r, 3, 4),
    };
    let (format, base) = (r.low(0), r.low(1));
    match r.entry {
        DISP_IMM => rust::emit_disp_imm(format, base, r.args[2] as i64).map_or(Lacks, emitted),
        DISP_TARGET => {
            // The buffer's offset is the word's address, and has 32 bits.
            let Ok(offset) = u32::try_from(r.place().address()) else {
                return Lacks;
            };
            let word = rust::emit_rel(format, base, r.args[2], offset);
            let heard = word.map_or(Lacks, |word| unless_panics(word, emitted));
            heard.carrying(displacements::low_12(format, r.args[2]))
        }
        _ => Lacks,
    }
}

fn module_8(r: &Request) -> Heard {
    match r.entry {
        ENCODE_FLOAT if r.low(1) == 64 => number(rust::encode_fp64_to_imm8(r.args[0])),
        IS_FP16 => yes_no(rust::is_fp16_imm8(r.low(0))),
        IS_FP32 => yes_no(rust::is_fp32_imm8(r.low(0))),
        IS_FP64 => yes_no(rust::is_fp64_imm8(r.args[0])),
        ENCODE_BYTE_MASK => number(rust::encode_imm64_byte_mask_to_imm8(r.args[0])),
        IS_BYTE_MASK => yes_no(rust::is_byte_mask_imm(r.args[0])),
        _ => Lacks,
    }
}

fn module_9(r: &Request) -> Heard {
    let [a, b, c, d, e, f] = [0, 1, 2, 3, 4, 5].map(|i| r.low(i));
    match r.entry {
        LMH => match rust::encode_lmh(a, b) {
            (_, None) => Says(Answer::no(7)),
            (false, Some(outputs)) => Spoils(9, outputs.to_vec()),
            (true, Some(outputs)) => Says(Answer::numbers(&outputs.map(u64::from))),
        },
        SIZE_OP => {
            let maps = rust::size_op_maps();
            let map = maps.iter().position(|map| *map == [a, b, c]);
            let size_op = map.and_then(|map| rust::element_type_to_size_op(map, d, e));
            size_op.map_or(Lacks, number)
        }
        PICK_FP => rust::pick_fp_opcode(a, b, (c, d), (e, f))
            .map_or(Lacks, |picked| unless_panics(picked, picked_answer)),
        _ => Lacks,
    }
}

fn picked_answer(picked: rust::Picked) -> Heard {
    match picked {
        (_, None) => Says(Answer::no(3)),
        (None, Some(size)) => Spoils(10, vec![size]),
        (Some(word), Some(size)) => Says(Answer::numbers(&[word.into(), size.into()])),
    }
}
