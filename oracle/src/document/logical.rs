//! Modules 3 and 4: logical immediates, their decoder and normaliser.

use std::collections::HashMap;
use std::sync::OnceLock;

use super::No;
use super::words::{self, Place};

/// What the decoder and the normaliser are asked: N, S and R.
pub type Fields = [u32; 3];

/// What is answered for a value: N, S, R and the length of the element.
pub type Answered = [u32; 4];

const OPERATIONS: [u32; 4] = [0x1200_0000, 0x3200_0000, 0x5200_0000, 0x7200_0000];

/// Arm's esize, the length of the element: 2 to the number of the highest bit set in N with the six
/// bits of S, inverted, below it. None where that is bit 0 or none is set: Arm has no element then.
pub fn element_length(n: u32, s: u32) -> Option<u32> {
    let len = (n << 6 | (!s & 63)).checked_ilog2()?;
    (len > 0).then_some(1 << len)
}

/// Arm's DecodeBitMasks for immediates, with the element's length; None where Arm leaves it
/// undefined, or the fields do not fit in their 1, 6 and 6 bits.
fn decode_bit_masks([n, s, r]: Fields, width: u32) -> Option<(u64, u32)> {
    if n > 1 || s > 63 || r > 63 || (n == 1 && width == 32) {
        return None;
    }
    let esize = element_length(n, s)?;
    let (ones, turn) = (s % esize + 1, r % esize);
    if ones == esize {
        return None;
    }
    // Bit k of the element is set where bit k + turn of the low run is, counted around.
    let bit = |k: u32| u64::from((k % esize + turn) % esize < ones);
    Some(((0..width).map(|k| bit(k) << k).sum(), esize))
}

/// Every value that legal fields decode to, with its fields and the length of its element, which R
/// is below.
pub fn masks(width: u32) -> &'static HashMap<u64, Answered> {
    static MASKS: [OnceLock<HashMap<u64, Answered>>; 2] = [OnceLock::new(), OnceLock::new()];
    MASKS[usize::from(width == 64)].get_or_init(|| {
        let all = (0..2 * 64 * 64).map(|i| [i >> 12, i >> 6 & 63, i & 63]);
        all.filter_map(|[n, s, r]| {
            let (value, esize) = decode_bit_masks([n, s, r], width)?;
            (r < esize).then_some((value, [n, s, r, esize]))
        })
        .collect()
    })
}

fn check_width(width: u32) -> Result<(), No> {
    if width == 32 || width == 64 { Ok(()) } else { Err(No(1)) }
}

/// Order 1, 3. Width 32 ignores higher bits.
pub fn encode_logical_imm(value: u64, width: u32) -> Result<Answered, No> {
    check_width(width)?;
    let low = if width == 32 { value % (1 << 32) } else { value };
    masks(width).get(&low).copied().ok_or(No(3))
}

/// Order 1, 3.
pub fn decode_logical_imm(fields: Fields, width: u32) -> Result<u64, No> {
    check_width(width)?;
    decode_bit_masks(fields, width).map(|(value, _)| value).ok_or(No(3))
}

/// The mask as two words at the start of a run of bytes, the low one first. Order 1, 3, 8.
pub fn put_decoded(run: &mut [u8], fields: Fields, width: u32) -> Result<u64, No> {
    let halves =
        decode_logical_imm(fields, width).map(|mask| vec![mask as u32, (mask >> 32) as u32]);
    words::put_bytes(run, Place { base: 0, position: 0 }, halves)
}

/// Decodes, then encodes. Order 1, 3.
pub fn normalise(fields: Fields, width: u32) -> Result<Answered, No> {
    encode_logical_imm(decode_logical_imm(fields, width)?, width)
}

/// The base word of an operation at a width: bit 31 is set at 64.
pub fn base(operation: u32, width: u32) -> Option<u32> {
    let base = OPERATIONS.get(operation as usize)?;
    Some(if width == 64 { base + 0x8000_0000 } else { *base })
}

/// Order 7, 1, 2, 3.
pub(super) fn logical_word(
    operation: u32,
    value: u64,
    width: u32,
    rn: u32,
    rd: u32,
) -> Result<u32, No> {
    let base = base(operation, width).ok_or(No(7))?;
    check_width(width)?;
    if rn > 31 || rd > 31 {
        return Err(No(2));
    }
    let [n, s, r, _] = encode_logical_imm(value, width)?;
    Ok(base + (n << 22) + (r << 16) + (s << 10) + (rn << 5) + rd)
}

/// The word of an operation, written at a place. Order 15, 7, 1, 2, 3, 8.
pub fn put_logical_word(
    run: &mut [u32],
    at: Place,
    operation: u32,
    value: u64,
    width: u32,
    (rn, rd): (u32, u32),
) -> Result<u64, No> {
    let word = logical_word(operation, value, width, rn, rd);
    words::put(run, at, word.map(|word| vec![word]))
}
