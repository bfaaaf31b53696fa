//! The rule of the stored scripts: every set of refusals that can hold at once, of each call; tables
//! and sheets on both sides of their limits, filled to the end and one more; finishes refused and
//! mended, and the room used again; random scripts; and at the end a record that is cut.

use super::{Record, kind};
use crate::lists::random::Random;

/// The records, and behind them the bytes of one that is cut.
pub fn stored() -> (Vec<Record>, Vec<u8>) {
    let mut script = Script::default();
    script.before_anew();
    script.refused_binds();
    script.refused_uses();
    script.refused_finishes();
    script.tables();
    script.filled(0);
    script.filled(1);
    script.filled(1023);
    script.filled(1024);
    script.filled(1025);
    script.cut_lengths();
    let mut random = Random::new(2 << 32);
    for i in 0..RANDOM {
        script.random(i, &mut random);
    }
    script.no_kinds();
    let cut = Record { kind: kind::FINISH, ..Record::default() };
    (script.records, cut.bytes()[..Record::BYTES - 1].to_vec())
}

/// How many random scripts there are.
const RANDOM: u64 = 50;

/// Base words, each at the number of its format.
const BASES: [&[u32]; 6] = [
    &[0x1400_0000, 0x9400_0000],
    &[0x5400_0000, 0x5400_000D, 0x3400_0005, 0xB500_001E],
    &[0x3600_0000, 0xB7F8_0003],
    &[0x1000_0000, 0x1000_001E],
    &[0x9000_0000, 0x9000_0007],
    &[0x5800_0000, 0x1800_0001, 0x9800_0002, 0xD800_0003, 0x1C00_0003, 0x5C00_0004, 0x9C00_001F],
];

const B: u32 = BASES[0][0];

/// No base words at format 0: of another form with a clear field, of another form with one that is
/// not clear, and of the form with one that is not.
const OTHER: u32 = 0x5400_0000;
const OTHER_TAKEN: u32 = 0xD503_201F;
const TAKEN: u32 = B | 1;

#[derive(Default)]
struct Script {
    records: Vec<Record>,
}

impl Script {
    fn anew(&mut self, labels: u64, uses: u64, words: u64) {
        let (label, position, format) = (labels, uses, words);
        self.records.push(Record { kind: kind::ANEW, base: 0, label, position, format });
    }

    fn put(&mut self, position: u64, word: u32) {
        self.records.push(Record {
            kind: kind::PUT,
            label: word.into(),
            position,
            ..Record::default()
        });
    }

    fn bind(&mut self, base: u64, position: u64, label: u64) {
        self.records.push(Record { kind: kind::BIND, base, label, position, format: 0 });
    }

    fn wait(&mut self, base: u64, position: u64, label: u64, format: u64) {
        self.records.push(Record { kind: kind::USE, base, label, position, format });
    }

    fn finish(&mut self, base: u64) {
        self.records.push(Record { kind: kind::FINISH, base, ..Record::default() });
    }

    /// Every call where there is nothing yet, and where nothing was asked for.
    fn before_anew(&mut self) {
        for _ in 0..2 {
            self.put(0, B);
            self.bind(0, 0, 0);
            self.wait(0, 0, 0, 0);
            self.finish(0);
            self.finish(2);
            self.anew(0, 0, 0);
        }
    }

    /// A bind for each set of 15, 12, 13 and 8 that can hold at once.
    fn refused_binds(&mut self) {
        for wrong in sets(&[15, 12, 13, 8]) {
            if wrong(12) && wrong(13) {
                continue;
            }
            self.anew(2, 1, 3);
            if wrong(13) {
                self.bind(8, 2, 1);
            }
            let label = if wrong(12) { 2 } else { 1 };
            let position = if wrong(8) { 4 } else { 3 };
            self.bind(if wrong(15) { 9 } else { 8 }, position, label);
            self.finish(8);
        }
    }

    /// A use for each set of its refusals that can hold at once.
    fn refused_uses(&mut self) {
        for wrong in sets(&[15, 7, 12, 8, 11, 6, 16, 14]) {
            if wrong(8) && (wrong(11) || wrong(6) || wrong(16)) {
                continue;
            }
            let before = wrong(16) || wrong(14);
            self.anew(1, if wrong(14) { 1 } else { 2 }, 2);
            if before {
                // The earlier use is of this word, or of the other.
                let position = u64::from(!wrong(16));
                self.put(position, B);
                self.wait(0, position, 0, 0);
            }
            self.put(0, base_word(wrong(11), wrong(6)));
            let position = if wrong(8) { 2 } else { 0 };
            let (label, format) = (u64::from(wrong(12)), if wrong(7) { 6 } else { 0 });
            self.wait(if wrong(15) { 2 } else { 0 }, position, label, format);
            self.bind(0, 1, 0);
            self.finish(0);
        }
    }

    /// A finish for each set of the refusals that calls can lead to: a base that is no multiple of
    /// 4, a label that is unbound, a word that was changed since. Then two uses, each with a refusal
    /// of its own, of which the first is given, mended one after the other.
    fn refused_finishes(&mut self) {
        for wrong in sets(&[15, 12, 11, 6]) {
            self.anew(2, 2, 4);
            self.two_uses();
            if !wrong(12) {
                self.bind(0, 4, 1);
            }
            self.put(1, base_word(wrong(11), wrong(6)));
            self.finish(if wrong(15) { 3 } else { 0 });
            self.put(1, B);
            self.bind(0, 4, 1);
            self.finish(0);
        }
        for (first, second) in [(12, 11), (12, 6), (11, 12), (11, 6), (6, 12), (6, 11)] {
            self.anew(2, 2, 4);
            self.two_uses();
            for (label, number) in [(0, first), (1, second)] {
                if number != 12 {
                    self.bind(4096, label + 3, label);
                }
                self.put(label, base_word(number == 11, number == 6));
            }
            self.finish(4096);
            self.put(0, B);
            self.bind(4096, 0, 0);
            self.finish(4096);
            self.put(1, B);
            self.bind(4096, 0, 1);
            self.finish(4096);
            self.finish(4096);
        }
    }

    /// A use of label 0 by word 0, and one of label 1 by word 1.
    fn two_uses(&mut self) {
        for position in 0..2 {
            self.put(position, B);
            self.wait(0, position, position, 0);
        }
    }

    /// Tables of several lengths, and labels around them and around 255.
    fn tables(&mut self) {
        for labels in [0, 1, 255, 256, 257, 300] {
            self.anew(labels, 8, 8);
            let mut asked = vec![labels.wrapping_sub(1), labels, 254, 255, 256, 299, 300, U32];
            asked.sort_unstable();
            asked.dedup();
            asked.retain(|label| *label <= U32);
            for (position, label) in (0..8).zip(asked) {
                self.put(position, BASES[0][1]);
                self.wait(0x1_0000, position, label, 0);
                self.bind(0x1_0000, 8 - position, label);
            }
            self.finish(0x1_0000);
        }
    }

    /// A sheet of so many uses filled to its end, or to the limit, and asked for one more; refused
    /// for the one label that is unbound, then finished, and its room used again.
    fn filled(&mut self, uses: u64) {
        let room = uses.min(1024);
        let words = room + 1;
        let base = 0x7FFF_FF80;
        self.anew(256, uses, words);
        for position in 0..words {
            let format = position % 6;
            let words = BASES[format as usize];
            self.put(position, words[position as usize / 6 % words.len()]);
            self.wait(base, position, position * 7 % 256, format);
        }
        // The first word is named, and the sheet is full.
        self.wait(base, 0, 0, 0);
        // Not the label of the last use that is there.
        let last = (room * 7).wrapping_sub(7) % 256;
        for label in (0..256).rev() {
            if label != last && label < words {
                self.bind(base, label * 37 % (words + 1), label);
            }
        }
        self.finish(base);
        self.bind(base, words, last);
        self.finish(base);
        for position in [0, words - 1] {
            self.put(position, BASES[4][1]);
            self.wait(base, position, last, 4);
        }
        self.finish(base);
        self.finish(base);
    }

    /// Lengths that are cut to the greatest.
    fn cut_lengths(&mut self) {
        for length in [1 << 32, u64::MAX] {
            self.anew(length, length, length);
            for position in [2047, 2048, u64::MAX] {
                self.put(position, B);
                self.wait(0, position, 255, 0);
            }
            self.bind(0, u64::MAX, 255);
            self.bind(0, 2049, 255);
            self.bind(0, 2048, 255);
            self.finish(0);
        }
    }

    /// Numbers that are no kind.
    fn no_kinds(&mut self) {
        for number in [5, 6, 255, 256, 1 << 32, (1 << 32) + 2, u64::MAX] {
            self.records.push(Record { kind: number, ..Record::default() });
        }
        self.finish(0);
    }

    /// A script of some 25 calls in a small room, at one base address: mostly right ones.
    fn random(&mut self, i: u64, r: &mut Random) {
        let [labels, uses] = [1 + r.below(5), r.below(10)];
        let words = 1 + r.below(12);
        self.anew(labels, uses, words);
        let base = match i % 4 {
            0 => 0,
            1 => r.value() & !3,
            // Up to the end of a page, or of all addresses.
            2 => (r.below(1 << 40) << 12).wrapping_sub(4 * r.below(words)),
            _ => (4 * r.below(words)).wrapping_neg(),
        };
        let mut formats = vec![0; words as usize];
        for position in 0..words {
            formats[position as usize] = r.below(6);
            self.put(position, r.one_of(BASES[formats[position as usize] as usize]));
        }
        for _ in 0..20 {
            let base = if r.below(24) == 0 { base + 1 + r.below(3) } else { base };
            let label = if r.below(12) == 0 { labels + r.below(3) } else { r.below(labels) };
            let position = if r.below(12) == 0 { words + r.below(3) } else { r.below(words) };
            let own = formats.get(position as usize).copied().unwrap_or(0);
            let format = if r.below(12) == 0 { r.below(8) } else { own };
            match r.below(16) {
                0 => self.put(position, r.one_of(&[OTHER, TAKEN, OTHER_TAKEN, B])),
                1 => self.put(position, r.one_of(BASES[own as usize])),
                2..6 => self.bind(base, position, label),
                6..14 => self.wait(base, position, label, format),
                _ => self.finish(base),
            }
        }
        for label in 0..labels {
            self.bind(base, r.below(words + 1), label);
        }
        self.finish(base);
    }
}

const U32: u64 = u32::MAX as u64;

/// A word for format 0, of another form or not, with its field clear or not.
fn base_word(other: bool, taken: bool) -> u32 {
    match (other, taken) {
        (false, false) => B,
        (false, true) => TAKEN,
        (true, false) => OTHER,
        (true, true) => OTHER_TAKEN,
    }
}

/// Every set of these numbers, the empty one first, as what says whether a number is in it.
fn sets(numbers: &'static [u32]) -> impl Iterator<Item = impl Fn(u32) -> bool> {
    (0..1_u32 << numbers.len()).map(move |set| {
        move |number| numbers.iter().enumerate().any(|(i, n)| *n == number && set >> i & 1 == 1)
    })
}
