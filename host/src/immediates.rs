//! Small immediates: 8-bit floats and byte masks, by asmkit's names.

use crate::error::{refused, Operands};
use crate::{raw, Error};

#[inline]
fn float(value: u64, width: u32) -> Result<u8, Error> {
    raw::float_imm8(value, width).map_err(|refusal| refused(refusal, Operands::Float(value, width)))
}

/// The 8-bit float that expands to the bits of a half float; bits above 16 are ignored.
///
/// # Errors
/// [`Error::NoFloat`] where none does.
///
/// ```
/// use vaimalofo::{encode_fp16_to_imm8, Error};
///
/// assert_eq!(encode_fp16_to_imm8(0x3C00), Ok(112)); // 1.0
/// assert_eq!(encode_fp16_to_imm8(0x3C01), Err(Error::NoFloat { value: 0x3C01, width: 16 }));
/// ```
#[inline]
pub fn encode_fp16_to_imm8(value: u32) -> Result<u8, Error> {
    float(value.into(), 16)
}

/// The 8-bit float that expands to the bits of a single float.
///
/// # Errors
/// [`Error::NoFloat`] where none does.
///
/// ```
/// use vaimalofo::encode_fp32_to_imm8;
///
/// assert_eq!(encode_fp32_to_imm8((-1.0_f32).to_bits()), Ok(240));
/// let error = encode_fp32_to_imm8(0.1_f32.to_bits()).unwrap_err();
/// assert_eq!(error.to_string(), "0x3dcccccd is no 8-bit float at width 32");
/// ```
#[inline]
pub fn encode_fp32_to_imm8(value: u32) -> Result<u8, Error> {
    float(value.into(), 32)
}

/// The 8-bit float that expands to the bits of a double float.
///
/// # Errors
/// [`Error::NoFloat`] where none does.
///
/// ```
/// use vaimalofo::encode_fp64_to_imm8;
///
/// assert_eq!(encode_fp64_to_imm8(31.0_f64.to_bits()), Ok(63));
/// let error = encode_fp64_to_imm8(0.0_f64.to_bits()).unwrap_err();
/// assert_eq!((error.number(), error.to_string()), (3, "0x0 is no 8-bit float at width 64".into()));
/// ```
#[inline]
pub fn encode_fp64_to_imm8(value: u64) -> Result<u8, Error> {
    float(value, 64)
}

/// Whether an 8-bit float expands to the bits of a half float; bits above 16 are ignored.
///
/// ```
/// use vaimalofo::is_fp16_imm8;
///
/// assert!(is_fp16_imm8(0x3C00) && is_fp16_imm8(0xFFFF3C00));
/// assert!(!is_fp16_imm8(0));
/// ```
#[inline]
pub fn is_fp16_imm8(value: u32) -> bool {
    raw::is_float_imm8(value.into(), 16) == Ok(true)
}

/// Whether an 8-bit float expands to the bits of a single float.
///
/// ```
/// use vaimalofo::is_fp32_imm8;
///
/// assert!(is_fp32_imm8(0.125_f32.to_bits()));
/// assert!(!is_fp32_imm8(0.1_f32.to_bits()));
/// ```
#[inline]
pub fn is_fp32_imm8(value: u32) -> bool {
    raw::is_float_imm8(value.into(), 32) == Ok(true)
}

/// Whether an 8-bit float expands to the bits of a double float.
///
/// ```
/// use vaimalofo::is_fp64_imm8;
///
/// assert!(is_fp64_imm8(1.0_f64.to_bits()));
/// assert!(!is_fp64_imm8(32.0_f64.to_bits()));
/// ```
#[inline]
pub fn is_fp64_imm8(value: u64) -> bool {
    raw::is_float_imm8(value, 64) == Ok(true)
}

/// The 8 bits of a byte mask: bit i is set where byte i is FF, and clear where it is 00.
///
/// # Errors
/// [`Error::NoByteMask`] where a byte is neither.
///
/// ```
/// use vaimalofo::encode_byte_mask_to_imm8;
///
/// assert_eq!(encode_byte_mask_to_imm8(0xFF000000000000FF), Ok(129));
/// let error = encode_byte_mask_to_imm8(1).unwrap_err();
/// assert_eq!(error.to_string(), "0x1 is no byte mask, whose bytes are 00 or FF");
/// ```
#[inline]
pub fn encode_byte_mask_to_imm8(value: u64) -> Result<u8, Error> {
    raw::byte_mask_imm8(value).map_err(|refusal| refused(refusal, Operands::ByteMask(value)))
}

/// Whether a value is a byte mask: each byte 00 or FF.
///
/// ```
/// use vaimalofo::is_byte_mask_imm;
///
/// assert!(is_byte_mask_imm(0x00FF00FF00FF00FF));
/// assert!(!is_byte_mask_imm(0x00FF00FF00FF00FE));
/// ```
#[inline]
pub fn is_byte_mask_imm(value: u64) -> bool {
    raw::byte_mask_imm8(value).is_ok()
}
