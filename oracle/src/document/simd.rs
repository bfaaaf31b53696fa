//! Module 9: SIMD sizes. Kinds: 0 other, 1 Gp32, 2 Gp64, 3 Vec8, 4 Vec16, 5 Vec32, 6 Vec64,
//! 7 Vec128. Elements: 0 none, 1 B, 2 H, 3 S, 4 D, 5 to 7 others.

use super::No;

/// lm, h and the limit of the register's number. Order 7, 9.
pub fn encode_lmh(size: u32, index: u32) -> Result<[u32; 3], No> {
    match (size, index) {
        (1, 0..=7) => Ok([index % 4, index / 4, 15]),
        (2, 0..=3) => Ok([2 * (index % 2), index / 2, 31]),
        (1 | 2, _) => Err(No(9)),
        _ => Err(No(7)),
    }
}

/// An entry of the two size tables.
fn size_entry(table: u32, kind: u32, element: u32) -> u32 {
    match (table, kind, element) {
        (0, 6, 0 | 1) => 0,
        (0, 7, 0 | 1) => 1,
        (1, 3..=6, 0) => [2, 6, 10, 14][kind as usize - 3],
        (1, 6, 1..=4) => [0, 4, 8, 14][element as usize - 1],
        (1, 7, 1..=4) => [1, 5, 9, 13][element as usize - 1],
        _ => 0xFF,
    }
}

/// Only unknown numbers get 7. FF, or an entry that is no bit of the accept mask, gives FF.
pub fn element_type_to_size_op(
    table: u32,
    size_mask: u32,
    accept_mask: u32,
    kind: u32,
    element: u32,
) -> Result<u32, No> {
    if table > 1 || kind > 7 || element > 7 {
        return Err(No(7));
    }
    match size_entry(table, kind, element) {
        entry @ 0..=15 if accept_mask >> entry & 1 == 1 => Ok(entry & size_mask),
        _ => Ok(0xFF),
    }
}

/// A row: the words for H, S and D; None where the row lacks the size.
const ROWS: [[Option<u32>; 3]; 6] = [
    [None, Some(0), Some(0x40_0000)],
    [Some(0), Some(0), Some(0)],
    [Some(0xC0_0000), Some(0), Some(0x40_0000)],
    [Some(0x58_0000), Some(0), Some(0)],
    [Some(0x60_C000), Some(0), Some(0x40_0000)],
    [Some(0x80_0000), Some(0), Some(0x40_0000)],
];

/// A base word and a row number.
pub type Op = (u32, u32);

/// The word and the size, 0, 1 or 2. Order 7, 3, 10. Element none is scalar; the other row and base
/// are not looked at.
pub fn pick_fp_opcode(kind: u32, element: u32, scalar: Op, vector: Op) -> Result<[u32; 2], No> {
    let (base, row) = if element == 0 { scalar } else { vector };
    if kind > 7 || element > 7 || row > 5 {
        return Err(No(7));
    }
    let (size, bit_30) = match (kind, element) {
        (4..=6, 0) => (kind - 4, 0),
        (6, 2..=4) => (element - 2, 0),
        (7, 2..=4) => (element - 2, 1 << 30),
        _ => return Err(No(3)),
    };
    let xor = ROWS[row as usize][size as usize].ok_or(No(3))?;
    if base == 0 {
        return Err(No(10));
    }
    Ok([xor ^ (base | bit_30), size])
}
