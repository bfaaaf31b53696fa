//! The one generator of all lists: SplitMix64.

/// Every list starts from this number plus its module's.
pub const SEED: u64 = 0x5661_696D_616C_6F66;

pub struct Random(u64);

impl Random {
    pub fn new(stream: u64) -> Self {
        Self(SEED + stream)
    }

    pub fn value(&mut self) -> u64 {
        self.0 = self.0.wrapping_add(0x9E37_79B9_7F4A_7C15);
        let x = (self.0 ^ (self.0 >> 30)).wrapping_mul(0xBF58_476D_1CE4_E5B9);
        let x = (x ^ (x >> 27)).wrapping_mul(0x94D0_49BB_1331_11EB);
        x ^ (x >> 31)
    }

    pub fn below(&mut self, n: u64) -> u64 {
        self.value() % n
    }

    pub fn one_of<T: Copy>(&mut self, items: &[T]) -> T {
        items[self.below(items.len() as u64) as usize]
    }

    /// A number of 32 bits: small, next to a power of two, or any.
    pub fn number(&mut self) -> u64 {
        match self.below(4) {
            0 | 1 => self.below(71),
            2 => ((1 << self.below(33)) + self.below(3)).wrapping_sub(1) as u32 as u64,
            _ => self.value() as u32 as u64,
        }
    }
}
