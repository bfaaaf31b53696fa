//! A request of the replay: which entry, and its numbers.

use std::fmt;

use crate::document::words::Place;
use entry::*;

/// The entries by number. A number divided by 16 is the entry's module in document 01.
pub mod entry {
    pub const BIT_TEST: u64 = 16;
    pub const LSB_MASK: u64 = 17;
    pub const PUT: u64 = 18;
    pub const PUT_BYTES: u64 = 19;
    pub const CHECK_GP_ID: u64 = 32;
    pub const CHECK_GP_ID2: u64 = 33;
    pub const CHECK_GP_ID3: u64 = 34;
    pub const CHECK_VEC_ID: u64 = 35;
    pub const CHECK_VEC_ID2: u64 = 36;
    pub const CHECK_VEC_ID3: u64 = 37;
    pub const CONDITION_FIELD: u64 = 38;
    pub const SHIFT_MAP: u64 = 39;
    pub const ENCODE_LOGICAL: u64 = 48;
    pub const LOGICAL_WORD: u64 = 49;
    pub const DECODE_LOGICAL: u64 = 64;
    pub const NORMALISE: u64 = 65;
    pub const MOVE: u64 = 80;
    pub const COUNT_ZERO_HALF_WORDS: u64 = 82;
    pub const PATCHABLE_MOVE: u64 = 96;
    pub const DISP_IMM: u64 = 112;
    pub const DISP_TARGET: u64 = 113;
    pub const READ_DISP: u64 = 114;
    pub const HAS_FORM: u64 = 115;
    pub const ENCODE_FLOAT: u64 = 128;
    pub const IS_FP16: u64 = 129;
    pub const IS_FP32: u64 = 130;
    pub const IS_FP64: u64 = 131;
    pub const ENCODE_BYTE_MASK: u64 = 132;
    pub const IS_BYTE_MASK: u64 = 133;
    pub const LMH: u64 = 144;
    pub const SIZE_OP: u64 = 145;
    pub const PICK_FP: u64 = 146;
}

#[derive(Clone, Copy, Debug, PartialEq, Eq, Hash)]
pub struct Request {
    pub entry: u64,
    pub args: [u64; 8],
}

impl fmt::Display for Request {
    fn fmt(&self, f: &mut fmt::Formatter) -> fmt::Result {
        write!(f, "entry {} with {:x?}", self.entry, self.args)
    }
}

impl Request {
    /// How many bytes spell one.
    pub const BYTES: usize = 72;

    /// A request with the arguments given and the unused ones 0.
    pub fn new(entry: u64, given: &[u64]) -> Self {
        let mut args = [0; 8];
        args[..given.len()].copy_from_slice(given);
        Self { entry, args }
    }

    /// A request of an entry that writes: what it is given, the length of the run, the position and
    /// the base address; the two writers have what they are given between the position and the
    /// base.
    pub fn writing(entry: u64, given: &[u64], len: u64, at: Place) -> Self {
        let run = [len, at.position];
        let (first, second) = match entry {
            PUT | PUT_BYTES => (&run[..], given),
            _ => (given, &run[..]),
        };
        Self::new(entry, &[first, second, &[at.base]].concat())
    }

    /// The arguments that give an entry that writes its position and base address.
    fn place_at(&self) -> Option<[usize; 2]> {
        match self.entry {
            PUT | PUT_BYTES => Some([1, 7]),
            LOGICAL_WORD => Some([6, 7]),
            MOVE => Some([3, 4]),
            PATCHABLE_MOVE | DISP_IMM | DISP_TARGET => Some([4, 5]),
            _ => None,
        }
    }

    /// Where an entry that writes is to write; both numbers are 0 for every other.
    pub fn place(&self) -> Place {
        let [position, base] = self.place_at().map_or([0; 2], |at| at.map(|i| self.args[i]));
        Place { base, position }
    }

    /// The same with another base address, where the entry writes; a target moves along.
    pub fn moved(mut self, base: u64) -> Self {
        let by = base.wrapping_sub(self.place().base);
        if let Some([_, i]) = self.place_at() {
            self.args[i] = base;
        }
        if self.entry == DISP_TARGET {
            self.args[2] = self.args[2].wrapping_add(by);
        }
        self
    }

    /// Nine little-endian numbers of 64 bits.
    pub fn bytes(&self) -> Vec<u8> {
        let numbers = std::iter::once(&self.entry).chain(&self.args);
        numbers.flat_map(|number| number.to_le_bytes()).collect()
    }

    /// Argument i where an entry takes a number of 32 bits.
    pub fn low(&self, i: usize) -> u32 {
        self.args[i] as u32
    }

    /// The lent run whose length is argument i, as it is before the call.
    pub fn run(&self, i: usize) -> Vec<u32> {
        (0..self.args[i] % 9).map(|k| 0xA500_0000 + k as u32).collect()
    }

    /// The lent byte run whose length is argument i, as it is before the call.
    pub fn byte_run(&self, i: usize) -> Vec<u8> {
        (0..self.args[i] % 33).map(|k| 0x80 + k as u8).collect()
    }
}
