//! mixed COUNT SEED: mixed records for the batch program, on standard output. The kind is 1 to 4 alike, and 1 time in 32 any byte; the register is
//! 0 to 31; the value is, 1 time in 4 each, any 64 bits; four halfwords, each 0, FFFF or any; a logical mask of 32 or 64 bits; an 8-bit float
//! expanded to 64 bits.
use std::io::{self, BufWriter, Write};

/// Vigna's xorshift64*.
struct Chance(u64);

impl Chance {
    fn bits(&mut self) -> u64 {
        self.0 ^= self.0 >> 12;
        self.0 ^= self.0 << 25;
        self.0 ^= self.0 >> 27;
        self.0.wrapping_mul(0x2545_F491_4F6C_DD1D)
    }

    fn below(&mut self, n: u64) -> u64 {
        ((self.bits() >> 32) * n) >> 32
    }
}

fn halfwords(c: &mut Chance) -> u64 {
    (0..4).fold(0, |v, _| {
        let half = [0, 0xFFFF, c.bits() >> 48][c.below(3) as usize];
        v << 16 | half
    })
}

/// A run of ones, turned, in each element of 2, 4, .. bits.
fn mask(c: &mut Chance) -> u64 {
    let width = 32 << c.below(2);
    let size = 2 << c.below(if width == 64 { 6 } else { 5 });
    let ones = 1 + c.below(size - 1);
    let turn = c.below(size);
    let run = u64::MAX >> (64 - ones);
    let element = (run >> turn | run << ((size - turn) % size)) & (u64::MAX >> (64 - size));
    (0..width / size).fold(0, |v, k| v | element << (k * size))
}

fn float(c: &mut Chance) -> u64 {
    let b = c.below(256);
    let exponent = if b & 0x40 == 0 { 0x100 } else { 0x0FF };
    (b >> 7) << 63 | exponent << 54 | (b & 0x3F) << 48
}

fn main() -> io::Result<()> {
    let mut numbers = std::env::args().skip(1).map(|a| a.parse::<u64>().expect("a number"));
    let count = numbers.next().unwrap_or(2_000_000);
    let mut c = Chance(numbers.next().unwrap_or(1).max(1));
    let mut out = BufWriter::with_capacity(65536, io::stdout().lock());
    for _ in 0..count {
        let kind = if c.below(32) == 0 { c.below(256) } else { 1 + c.below(4) } as u8;
        let register = c.below(32) as u8;
        let value = match c.below(4) {
            0 => c.bits(),
            1 => halfwords(&mut c),
            2 => mask(&mut c),
            _ => float(&mut c),
        };
        out.write_all(&[0x46, 0x53, kind, register])?;
        out.write_all(&value.to_le_bytes())?;
    }
    out.flush()
}
