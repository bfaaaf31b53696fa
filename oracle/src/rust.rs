//! The original's functions on plain numbers, one for each that document 01 ports.

use std::cell::Cell;
use std::panic::{AssertUnwindSafe, catch_unwind, set_hook, take_hook};
use std::sync::Once;

use crate::aarch64::emit::Handler;
use crate::aarch64::encoder::{self, A64EmitState, LMHImm, OffsetType, Opc, SizeOp};
use crate::aarch64::encoder_tables::{SHIFT_OP_TO_LD_ST_OP_MAP, SIZE_OP_MAP};
use crate::aarch64::operands::{Vec as VecReg, VecElementType};
use crate::aarch64::{Assembler, LogicalImm, encode_patchable_mov_imm as patchable_mov_imm};
use crate::core::buffer::CodeBuffer;
use crate::core::operand::{Imm, Operand, OperandSignature, OperandType, RegType};

/// The original panicked: an index out of range, or an overflow where those are checked.
#[derive(Clone, Copy, Debug, PartialEq, Eq)]
pub struct Panics;

thread_local! {
    static QUIET: Cell<bool> = const { Cell::new(false) };
}

/// Calls the original with its panics caught and their messages kept off the terminal.
fn caught<T>(call: impl FnOnce() -> T) -> Result<T, Panics> {
    static HOOK: Once = Once::new();
    HOOK.call_once(|| {
        let loud = take_hook();
        set_hook(Box::new(move |info| {
            if !QUIET.get() {
                loud(info);
            }
        }));
    });
    QUIET.set(true);
    let result = catch_unwind(AssertUnwindSafe(call));
    QUIET.set(false);
    result.map_err(|_| Panics)
}

pub fn bit_test(value: u32, n: u32) -> bool {
    encoder::bit_test(value, n)
}

pub fn lsb_mask(n: u32) -> Result<u64, Panics> {
    caught(|| encoder::lsb_mask::<u64>(n))
}

/// An operand whose id is the number; the checks look at nothing else.
fn operand(id: u32) -> Operand {
    Operand::make_reg(OperandSignature::from_reg_type(RegType::Gp64), id)
}

pub fn check_gp_id(id: u32, hi: u32) -> bool {
    encoder::check_gp_id(&operand(id), hi)
}

pub fn check_gp_id2(id0: u32, id1: u32, hi: u32) -> bool {
    encoder::check_gp_id2(&operand(id0), &operand(id1), hi)
}

pub fn check_gp_id3(id0: u32, id1: u32, id2: u32, hi: u32) -> bool {
    encoder::check_gp_id3(&operand(id0), &operand(id1), &operand(id2), hi)
}

pub fn check_vec_id(id: u32) -> bool {
    encoder::check_vec_id(&operand(id))
}

pub fn check_vec_id2(id0: u32, id1: u32) -> bool {
    encoder::check_vec_id2(&operand(id0), &operand(id1))
}

pub fn check_vec_id3(id0: u32, id1: u32, id2: u32) -> bool {
    encoder::check_vec_id3(&operand(id0), &operand(id1), &operand(id2))
}

pub fn cond_code_to_opcode_field(cond: u32) -> u32 {
    encoder::cond_code_to_opcode_field(cond)
}

pub fn shift_op_to_ld_st_op(n: u32) -> Result<u8, Panics> {
    caught(|| SHIFT_OP_TO_LD_ST_OP_MAP[n as usize])
}

/// N, S and R, or None where the original finds no fields.
pub fn encode_logical_imm(value: u64, width: u32) -> Result<Option<[u32; 3]>, Panics> {
    caught(|| encoder::encode_logical_imm(value, width).map(|f| [f.n, f.s, f.r]))
}

/// A base word with the fields and the registers placed.
pub fn logical_word(base: u32, [n, s, r]: [u32; 3], rn: u32, rd: u32) -> u32 {
    let mut word = Opc(base);
    word.add_logical_imm(&LogicalImm { n, s, r });
    word.add_reg(rn, 5).add_reg(rd, 0).get()
}

pub fn encode_mov_sequence64(value: u64, rd: u32, x: u32) -> Vec<u32> {
    let mut words = [0; 4];
    let count = encoder::encode_mov_sequence64(&mut words, value, rd, x);
    words[..count].to_vec()
}

pub fn encode_mov_sequence32(value: u32, rd: u32, x: u32) -> Vec<u32> {
    let mut words = [0; 2];
    let count = encoder::encode_mov_sequence32(&mut words, value, rd, x);
    words[..count].to_vec()
}

pub fn count_zero_half_words_64(value: u64) -> u32 {
    encoder::count_zero_half_words_64(value)
}

pub fn encode_patchable_mov_imm(value: u64, is_64bit: bool, rd: u32) -> Vec<u32> {
    words(&patchable_mov_imm(rd, is_64bit, value))
}

/// Little-endian bytes as words.
fn words(bytes: &[u8]) -> Vec<u32> {
    let word = |four: &[u8]| u32::from_le_bytes([four[0], four[1], four[2], four[3]]);
    bytes.chunks_exact(4).map(word).collect()
}

/// The state in which a handler starts, at one of document 01's six formats.
fn emit_state(format: u32, base: u32) -> Option<A64EmitState> {
    let (kind, shift, bits, discard) = match format {
        0 => (OffsetType::SignedOffset, 0, 26, 2),
        1 => (OffsetType::SignedOffset, 5, 19, 2),
        2 => (OffsetType::SignedOffset, 5, 14, 2),
        3 => (OffsetType::Adr, 5, 21, 0),
        4 => (OffsetType::Adrp, 5, 21, 12),
        5 => (OffsetType::Ldr, 5, 19, 2),
        _ => return None,
    };
    let mut state = A64EmitState::new();
    state.opcode.reset(base);
    state.offset_format.reset_to_imm_type(kind, 4, shift, bits, discard);
    Some(state)
}

/// The word that a handler writes into a buffer that stands at an offset; None where it refuses.
fn emitted(handler: Handler, mut state: A64EmitState, offset: u32) -> Option<u32> {
    let mut buffer = CodeBuffer::starting_at(offset);
    let mut assembler = Assembler::new(&mut buffer);
    assembler.emit_handler(handler, &mut state);
    match assembler.last_error {
        Some(_) => None,
        None => Some(words(buffer.data())[0]),
    }
}

/// The word, or None where the original refuses; None outside where it has no such format.
pub fn emit_disp_imm(format: u32, base: u32, distance: i64) -> Option<Option<u32>> {
    let mut state = emit_state(format, base)?;
    state.offset_value = distance;
    Some(emitted(Handler::OpDispImm, state, 0))
}

/// The same for an immediate target, from the offset where the buffer stands.
pub fn emit_rel(
    format: u32,
    base: u32,
    target: u64,
    offset: u32,
) -> Option<Result<Option<u32>, Panics>> {
    let mut state = emit_state(format, base)?;
    state.rm_rel = Imm::from_value(target as i64, 0).0;
    Some(caught(|| emitted(Handler::OpRel, state, offset)))
}

pub fn is_fp16_imm8(value: u32) -> bool {
    encoder::is_fp16_imm8(value)
}

pub fn is_fp32_imm8(value: u32) -> bool {
    encoder::is_fp32_imm8(value)
}

pub fn is_fp64_imm8(value: u64) -> bool {
    encoder::is_fp64_imm8(value)
}

pub fn encode_fp64_to_imm8(value: u64) -> u32 {
    encoder::encode_fp64_to_imm8(value)
}

pub fn is_byte_mask_imm(value: u64) -> bool {
    encoder::is_byte_mask_imm(value)
}

pub fn encode_imm64_byte_mask_to_imm8(value: u64) -> u32 {
    encoder::encode_imm64_byte_mask_to_imm8(value)
}

/// What an output holds before the call, to see whether it is written.
const UNWRITTEN: u32 = 0xDEAD_BEEF;

/// Whether the original accepts, and lm, h and the limit where it has written them.
pub fn encode_lmh(size: u32, index: u32) -> (bool, Option<[u32; 3]>) {
    let mut out = LMHImm { lm: UNWRITTEN, h: UNWRITTEN, max_rm_id: UNWRITTEN };
    let accepted = encoder::encode_lmh(size, index, &mut out);
    let outputs = [out.lm, out.h, out.max_rm_id];
    (accepted, (outputs != [UNWRITTEN; 3]).then_some(outputs))
}

/// The original's register type for a kind of document 01, by name; kind 0 is any other.
fn reg_type(kind: u32) -> Option<RegType> {
    Some(match kind {
        0 => RegType::None,
        1 => RegType::Gp32,
        2 => RegType::Gp64,
        3 => RegType::Vec8,
        4 => RegType::Vec16,
        5 => RegType::Vec32,
        6 => RegType::Vec64,
        7 => RegType::Vec128,
        _ => return None,
    })
}

/// The original's element type for an element of document 01, by name; it has no eighth.
fn element_type(element: u32) -> Option<VecElementType> {
    Some(match element {
        0 => VecElementType::None,
        1 => VecElementType::B,
        2 => VecElementType::H,
        3 => VecElementType::S,
        4 => VecElementType::D,
        5 => VecElementType::B4,
        6 => VecElementType::H2,
        _ => return None,
    })
}

/// The original's map entries: table, size mask, accept mask.
pub fn size_op_maps() -> Vec<[u32; 3]> {
    let entry = |map: &encoder::SizeOpMap| {
        [u32::from(map.table_id), u32::from(map.size_op_mask), u32::from(map.accept_mask)]
    };
    SIZE_OP_MAP.iter().map(entry).collect()
}

/// The size op by a map entry's place in the list; None where a kind or element cannot be made.
pub fn element_type_to_size_op(map: usize, kind: u32, element: u32) -> Option<u8> {
    size_op(map, reg_type(kind)?, element_type(element)?)
}

/// A size op's number can only be had by comparing.
fn size_op(map: usize, kind: RegType, element: VecElementType) -> Option<u8> {
    let size_op = encoder::element_type_to_size_op(map as u32, kind, element);
    (0..=255).find(|number| SizeOp::new(*number) == size_op)
}

/// The word where the original accepts, and the size where it has written one.
pub type Picked = (Option<u32>, Option<u32>);

/// A base word and a row.
pub type Op = (u32, u32);

/// None where a kind or element cannot be made.
pub fn pick_fp_opcode(
    kind: u32,
    element: u32,
    scalar: Op,
    vector: Op,
) -> Option<Result<Picked, Panics>> {
    Some(picked(reg_type(kind)?, element_type(element)?, scalar, vector))
}

fn picked(kind: RegType, element: VecElementType, s: Op, v: Op) -> Result<Picked, Panics> {
    let signature =
        OperandSignature::from_op_type(OperandType::Reg) | OperandSignature::from_reg_type(kind);
    let mut reg = VecReg::from_signature_and_id(signature, 0);
    reg.set_element_type(element);
    let mut size = UNWRITTEN;
    let word = caught(|| encoder::pick_fp_opcode(reg, s.0, s.1, v.0, v.1, &mut size))?;
    Ok((word.map(|word| word.get()), (size != UNWRITTEN).then_some(size)))
}

#[cfg(test)]
mod tests {
    use super::*;

    /// Kind 0 stands for each of the original's register types that document 01 does not name.
    #[test]
    fn other_kinds_are_alike() {
        let named: Vec<_> = (1..8).filter_map(reg_type).collect();
        let others = (0..32).filter_map(|number| RegType::try_from(number).ok());
        for kind in others.filter(|kind| !named.contains(kind)) {
            for element in (0..7).filter_map(element_type) {
                for map in 0..SIZE_OP_MAP.len() {
                    assert_eq!(size_op(map, kind, element), Some(0xFF));
                }
                for row in 0..6 {
                    assert_eq!(picked(kind, element, (1, row), (1, row)), Ok((None, None)));
                }
            }
        }
    }

    /// No two map entries are the same, so that one is found by its three numbers.
    #[test]
    fn map_entries_differ() {
        let maps = size_op_maps();
        assert_eq!(maps.len(), 23);
        for (i, map) in maps.iter().enumerate() {
            assert_eq!(maps.iter().position(|other| other == map), Some(i));
        }
    }
}
