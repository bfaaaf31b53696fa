//! Module 8: small immediates.

use super::No;

/// The exponent's bits of a float. Refusal 1: no such width.
fn exponent_bits(width: u32) -> Result<u32, No> {
    match width {
        16 => Ok(5),
        32 => Ok(8),
        64 => Ok(11),
        _ => Err(No(1)),
    }
}

/// Arm's VFPExpandImm: sign, then bit 6 inverted, bit 6 repeated, bits 5 and 4, then the fraction.
fn expand(imm8: u32, width: u32, exponent: u32) -> u64 {
    let repeated = |bit: u32, times: u32| u64::from(bit) * ((1 << times) - 1);
    let (sign, b, cd, efgh) = (imm8 >> 7, imm8 >> 6 & 1, imm8 >> 4 & 3, imm8 & 15);
    let exp = u64::from(1 - b) << (exponent - 1) | repeated(b, exponent - 3) << 2 | u64::from(cd);
    let fraction = width - exponent - 1;
    u64::from(sign) << (width - 1) | exp << fraction | u64::from(efgh) << (fraction - 4)
}

/// The value of an 8-bit float at one of the three widths.
pub fn expand_float(imm8: u32, width: u32) -> Result<u64, No> {
    Ok(expand(imm8, width, exponent_bits(width)?))
}

/// Order 1, 3. Bits above the width are ignored.
pub fn encode_float(value: u64, width: u32) -> Result<u32, No> {
    let exponent = exponent_bits(width)?;
    let low = if width == 64 { value } else { value % (1 << width) };
    (0..256).find(|imm8| expand(*imm8, width, exponent) == low).ok_or(No(3))
}

/// Whether some 8-bit float spells the value.
pub fn is_float(value: u64, width: u32) -> bool {
    encode_float(value, width).is_ok()
}

/// The same, where the width is asked too. Refusal 1: no such width.
pub fn is_float_at(value: u64, width: u32) -> Result<bool, No> {
    exponent_bits(width).map(|_| is_float(value, width))
}

/// Byte i is bit i. Refusal 3: a byte is neither 00 nor FF.
pub fn encode_byte_mask(value: u64) -> Result<u32, No> {
    let mut imm8 = 0;
    for (i, byte) in value.to_le_bytes().into_iter().enumerate() {
        match byte {
            0x00 => {}
            0xFF => imm8 += 1 << i,
            _ => return Err(No(3)),
        }
    }
    Ok(imm8)
}

pub fn is_byte_mask(value: u64) -> bool {
    encode_byte_mask(value).is_ok()
}
