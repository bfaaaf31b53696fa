//! A64 (AArch64) machine words from proved encoders: moves of 64-bit values, logical immediates, the displacements of branches, ADR,
//! ADRP and LDR (literal), labels that are bound late, 8-bit floats and byte masks; and words read back into constants, immediates and
//! distances.
//!
//! Every function calls an entry of a static library in which each function is proved to meet its contract; this package is the safe
//! Rust around it, without `std` and without an allocator. An answer is a value or an [`Error`] that names the operand, whatever was
//! asked, and an error leaves every lent byte as it was.
//!
//! Words go to a lent run of bytes: a word is four bytes, low byte first, and a tail under four bytes is no room. A [`Place`] says where
//! in the run and at which address, and a function that writes answers the place just past its last word, from which the next one can
//! go on:
//!
//! ```
//! use vaimalofo::{displacement_to, mov, words, Address, Format, Place, Reg};
//!
//! let mut code = [0; 16];
//! let start = Place::at(Address(0x1000));
//! let at = mov(&mut code, start, 0x12345678, Reg::X0)?;
//! assert_eq!(at.address(), Address(0x1008));
//! // A branch back to the start.
//! let end = displacement_to(&mut code, at, Format::Branch26, 0x14000000, start.address())?.place;
//! assert_eq!(end.address(), Address(0x100C));
//! assert!(words(&code).take(end.position.0).eq([0xD28ACF00, 0xF2A24680, 0x17FFFFFE]));
//! # Ok::<(), vaimalofo::Error>(())
//! ```
//!
//! | to | there are |
//! |---|---|
//! | move a value | [`mov`], [`patchable_mov`], [`count_zero_half_words_64`] |
//! | use a mask | [`logical_word`], [`logical_fields`], [`decode_logical`], [`normalise_logical`] |
//! | branch, or reach data | [`displacement`], [`displacement_to`], [`has_form`], [`read_displacement`] |
//! | change a distance later | [`retarget`], [`retarget_to`] |
//! | reach what has no address yet | [`Labels`], [`Uses`] |
//! | read words back | [`read`], [`read_at`], [`rewrite`] |
//! | use a small immediate | [`encode_fp64_to_imm8`], [`is_fp64_imm8`] and those for 16 and 32 bits, [`encode_byte_mask_to_imm8`], [`is_byte_mask_imm`] |
//! | test ids and conditions as asmkit does | [`check_gp_id`], [`check_vec_id`], [`cond_code_to_opcode_field`] |
//!
//! [`raw`] has the same on bare numbers. Labels are those of a run of words, whose bytes [`bytes`] lends to the functions that write.
//! Where a page of this project says "document 01", the paper is meant that the rules and the numbers of the refusals came from.

#![no_std]
#![deny(unsafe_code)]
#![warn(missing_docs)]

mod displacements;
mod error;
#[allow(unsafe_code)]
mod ffi;
mod format;
mod immediates;
mod labels;
mod logical;
mod moves;
mod place;
pub mod raw;
mod reader;
mod refusal;
mod register;

pub use displacements::{
    displacement, displacement_to, has_form, read_displacement, retarget, retarget_to, Reached,
};
pub use error::Error;
pub use ffi::Use;
pub use format::Format;
pub use immediates::{
    encode_byte_mask_to_imm8, encode_fp16_to_imm8, encode_fp32_to_imm8, encode_fp64_to_imm8,
    is_byte_mask_imm, is_fp16_imm8, is_fp32_imm8, is_fp64_imm8,
};
pub use labels::{Label, Labels, Unfinished, Uses};
pub use logical::{
    decode_logical, logical_fields, logical_word, normalise_logical, Fields, Logical, LogicalOp,
};
pub use moves::{count_zero_half_words_64, mov, patchable_mov};
pub use place::{bytes, words, Address, ByteDistance, Place, WordPos, Words};
pub use reader::{read, read_at, rewrite, Item, Read, Reads};
pub use refusal::Refusal;
pub use register::{check_gp_id, check_vec_id, cond_code_to_opcode_field, Reg, Width};

/// The code of the page for those who come from asmkit is compiled and run with these examples.
#[cfg(doctest)]
#[doc = include_str!("../../docs/MIGRATION.md")]
struct Migration;
