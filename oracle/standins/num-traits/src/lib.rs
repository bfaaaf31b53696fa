//! Stands in for the crate num-traits: the one trait that asmkit's operand.rs names.

pub trait FromPrimitive: Sized {
    fn from_i64(n: i64) -> Option<Self>;
}
