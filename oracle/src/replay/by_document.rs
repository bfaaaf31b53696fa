//! Document 01's answer to a request.

use super::answer::{Answer, packed};
use super::request::{Request, entry::*};
use crate::document::*;

/// The answer of the entry that a request names; a number that is no entry's gets `no 7`.
pub fn answer(r: &Request) -> Answer {
    let found = match r.entry / 16 {
        1 => module_1(r),
        2 => module_2(r),
        3 | 4 => modules_3_and_4(r),
        5 | 6 => modules_5_and_6(r),
        7 => module_7(r),
        8 => module_8(r),
        9 => module_9(r),
        _ => None,
    };
    found.unwrap_or(Answer::no(7))
}

/// A refusal's number, or the numbers of an answer.
fn numbers<const N: usize>(said: Result<[u32; N], No>) -> Answer {
    match said {
        Ok(found) => Answer::numbers(&found.map(u64::from)),
        Err(No(number)) => Answer::no(number),
    }
}

/// A refusal's number, or a value of 64 bits.
fn wide(said: Result<u64, No>) -> Answer {
    said.map_or_else(|No(number)| Answer::no(number), Answer::wide)
}

fn module_1(r: &Request) -> Option<Answer> {
    let given = || -> Vec<u32> { (3..3 + r.args[2].min(4) as usize).map(|i| r.low(i)).collect() };
    Some(match r.entry {
        BIT_TEST => Answer::yes_no(words::bit_test(r.low(0), r.low(1))),
        LSB_MASK => Answer::wide(words::lsb_mask(r.low(0))),
        PUT => {
            let mut run = r.run(0);
            Answer::wrote(words::put(&mut run, r.place(), Ok(given())), run)
        }
        PUT_BYTES => {
            let mut run = r.byte_run(0);
            let position = words::put_bytes(&mut run, r.place(), Ok(given()));
            Answer::wrote(position, packed(&run))
        }
        _ => return None,
    })
}

fn module_2(r: &Request) -> Option<Answer> {
    let ids = [r.low(0), r.low(1), r.low(2)];
    Some(match r.entry {
        CHECK_GP_ID => Answer::yes_no(registers::check_gp_ids(&ids[..1], r.low(1))),
        CHECK_GP_ID2 => Answer::yes_no(registers::check_gp_ids(&ids[..2], r.low(2))),
        CHECK_GP_ID3 => Answer::yes_no(registers::check_gp_ids(&ids, r.low(3))),
        CHECK_VEC_ID => Answer::yes_no(registers::check_vec_ids(&ids[..1])),
        CHECK_VEC_ID2 => Answer::yes_no(registers::check_vec_ids(&ids[..2])),
        CHECK_VEC_ID3 => Answer::yes_no(registers::check_vec_ids(&ids)),
        CONDITION_FIELD => numbers(Ok([registers::condition_field(r.low(0))])),
        SHIFT_MAP => numbers(registers::shift_op_to_ld_st_op(r.low(0)).map(|x| [x])),
        _ => return None,
    })
}

fn modules_3_and_4(r: &Request) -> Option<Answer> {
    let fields = [r.low(0), r.low(1), r.low(2)];
    Some(match r.entry {
        ENCODE_LOGICAL => numbers(logical::encode_logical_imm(r.args[0], r.low(1))),
        LOGICAL_WORD => {
            let mut run = r.run(5);
            let (operation, value, width) = (r.low(0), r.args[1], r.low(2));
            let registers = (r.low(3), r.low(4));
            let position =
                logical::put_logical_word(&mut run, r.place(), operation, value, width, registers);
            Answer::wrote(position, run)
        }
        DECODE_LOGICAL => wide(logical::decode_logical_imm(fields, r.low(3))),
        NORMALISE => numbers(logical::normalise(fields, r.low(3))),
        _ => return None,
    })
}

fn modules_5_and_6(r: &Request) -> Option<Answer> {
    Some(match r.entry {
        MOVE => {
            let mut run = r.run(2);
            let position = moves::encode_mov_sequence64(&mut run, r.place(), r.args[0], r.low(1));
            Answer::wrote(position, run)
        }
        COUNT_ZERO_HALF_WORDS => numbers(Ok([moves::count_zero_half_words_64(r.args[0])])),
        PATCHABLE_MOVE => {
            let mut run = r.run(3);
            let (value, size, rd) = (r.args[0], r.low(1), r.low(2));
            let position = moves::encode_patchable_mov_imm(&mut run, r.place(), value, size, rd);
            Answer::wrote(position, run)
        }
        _ => return None,
    })
}

fn module_7(r: &Request) -> Option<Answer> {
    let (format, base) = (r.low(0), r.low(1));
    Some(match r.entry {
        DISP_IMM => {
            let mut run = r.run(3);
            let distance = r.args[2] as i64;
            let position =
                displacements::emit_disp_imm(&mut run, r.place(), format, base, distance);
            Answer::wrote(position, run)
        }
        DISP_TARGET => {
            let mut run = r.run(3);
            let target = r.args[2];
            let position =
                displacements::emit_disp_target(&mut run, r.place(), format, base, target);
            Answer::wrote(position, run).carrying(displacements::low_12(format, target))
        }
        READ_DISP => wide(displacements::read_disp(r.low(0), r.low(1)).map(|d| d as u64)),
        HAS_FORM => numbers(displacements::has_form(format, base).map(|yes| [yes.into()])),
        _ => return None,
    })
}

fn module_8(r: &Request) -> Option<Answer> {
    let value = r.args[0];
    Some(match r.entry {
        ENCODE_FLOAT => numbers(immediates::encode_float(value, r.low(1)).map(|x| [x])),
        IS_FP16 => Answer::yes_no(immediates::is_float(value, 16)),
        IS_FP32 => Answer::yes_no(immediates::is_float(value, 32)),
        IS_FP64 => Answer::yes_no(immediates::is_float(value, 64)),
        ENCODE_BYTE_MASK => numbers(immediates::encode_byte_mask(value).map(|x| [x])),
        IS_BYTE_MASK => Answer::yes_no(immediates::is_byte_mask(value)),
        _ => return None,
    })
}

fn module_9(r: &Request) -> Option<Answer> {
    let [a, b, c, d, e, f] = [0, 1, 2, 3, 4, 5].map(|i| r.low(i));
    Some(match r.entry {
        LMH => numbers(simd::encode_lmh(a, b)),
        SIZE_OP => numbers(simd::element_type_to_size_op(a, b, c, d, e).map(|x| [x])),
        PICK_FP => numbers(simd::pick_fp_opcode(a, b, (c, d), (e, f))),
        _ => return None,
    })
}
