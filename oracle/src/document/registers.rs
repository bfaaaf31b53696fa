//! Module 2: register and condition checks.

use super::No;

/// Below 31, or equal to the named high id.
pub fn check_gp_id(id: u32, hi: u32) -> bool {
    id < 31 || id == hi
}

pub fn check_gp_ids(ids: &[u32], hi: u32) -> bool {
    ids.iter().all(|id| check_gp_id(*id, hi))
}

/// Each below 32.
pub fn check_vec_ids(ids: &[u32]) -> bool {
    ids.iter().all(|id| *id < 32)
}

/// (cond - 2) mod 16.
pub fn condition_field(cond: u32) -> u32 {
    (i64::from(cond) - 2).rem_euclid(16) as u32
}

/// The entries 0 to 15. Above: refusal 7. An entry of 255 is returned as it is.
pub fn shift_op_to_ld_st_op(n: u32) -> Result<u32, No> {
    match n {
        0 => Ok(3),
        8 => Ok(2),
        12 => Ok(6),
        13 => Ok(7),
        1..=15 => Ok(255),
        _ => Err(No(7)),
    }
}
