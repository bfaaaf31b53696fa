//! Scripts of labels: records that bind, use and finish, and the lines that the gate's program
//! `label_scripts` prints for them. The answers are the model's: the original has no labels.

pub mod rule;

use std::fmt::Write;

use crate::document::No;
use crate::document::labels::{Book, Label, Use};
use crate::document::words::Place;

/// The kinds of record. Any other number is none.
pub mod kind {
    pub const ANEW: u64 = 0;
    pub const PUT: u64 = 1;
    pub const BIND: u64 = 2;
    pub const USE: u64 = 3;
    pub const FINISH: u64 = 4;
}

/// What an `ANEW` may ask for at most: labels, uses and words.
pub const MOST: [u64; 3] = [300, 1100, 2048];

#[derive(Clone, Copy, Debug, Default, PartialEq, Eq)]
pub struct Record {
    pub kind: u64,
    pub base: u64,
    pub label: u64,
    pub position: u64,
    pub format: u64,
}

impl Record {
    pub const BYTES: usize = 40;

    /// Five numbers of 8 bytes, low byte first.
    pub fn bytes(&self) -> Vec<u8> {
        let numbers = [self.kind, self.base, self.label, self.position, self.format];
        numbers.iter().flat_map(|number| number.to_le_bytes()).collect()
    }

    fn at(&self) -> Place {
        Place { base: self.base, position: self.position }
    }
}

/// A run, a table and a sheet of so many words, labels and uses, all 0.
fn anew(labels: u64, uses: u64, words: u64) -> Book {
    Book {
        run: vec![0; words as usize],
        labels: vec![Label::Unbound; labels as usize],
        sheet: vec![Use::default(); uses as usize],
        count: 0,
    }
}

/// A player of scripts. Before the first `ANEW` it has nothing.
pub struct Player {
    pub book: Book,
}

impl Default for Player {
    fn default() -> Self {
        Self { book: anew(0, 0, 0) }
    }
}

impl Player {
    /// What a record does, and its lines. Labels and formats are cut to 32 bits.
    pub fn play(&mut self, record: &Record) -> (Option<Result<u64, No>>, String) {
        let (label, format) = (record.label as u32, record.format as u32);
        let waiting = self.book.count as usize;
        let said = match record.kind {
            kind::ANEW => {
                let [labels, uses, words] = MOST;
                self.book = anew(
                    record.label.min(labels),
                    record.position.min(uses),
                    record.format.min(words),
                );
                Ok(0)
            }
            kind::PUT => {
                if record.position < self.book.run.len() as u64 {
                    self.book.run[record.position as usize] = label;
                }
                Ok(0)
            }
            kind::BIND => self.book.bind(record.at(), label).map(|()| 0),
            kind::USE => self.book.use_label(record.at(), label, format),
            kind::FINISH => self.book.finish(record.base),
            _ => return (None, "bad\n".into()),
        };
        let mut text = match said {
            Ok(value) => format!("ok {value}\n"),
            Err(No(number)) => format!("refused {number}\n"),
        };
        if record.kind == kind::FINISH {
            self.sums(waiting, &mut text);
        }
        (Some(said), text)
    }

    /// One number each of the words, of the table, and of the labels, the positions and the formats
    /// of the uses that waited before.
    fn sums(&self, waiting: usize, text: &mut String) {
        let Book { run, labels, sheet, .. } = &self.book;
        let uses = &sheet[..waiting];
        let all = [
            sum(run.iter().map(|word| u64::from(*word))),
            sum(labels.iter().map(|label| label.entry())),
            sum(uses.iter().map(|one| u64::from(one.label))),
            sum(uses.iter().map(|one| one.position)),
            sum(uses.iter().map(|one| u64::from(one.format))),
        ];
        for sum in all {
            writeln!(text, "sum {sum}").expect("a string can be written");
        }
    }
}

/// The sum of (i + 1) times number i, modulo 2^64.
fn sum(numbers: impl Iterator<Item = u64>) -> u64 {
    (1..).zip(numbers).fold(0, |sum: u64, (i, x): (u64, u64)| sum.wrapping_add(i.wrapping_mul(x)))
}

#[cfg(test)]
mod tests {
    use super::*;

    #[test]
    fn lines() {
        let mut player = Player::default();
        let mut said = String::new();
        for [kind, base, label, position, format] in [
            [2, 0, 0, 0, 0],
            [0, 0, 2, 3, 4],
            [1, 0, 0x1400_0000, 1, 0],
            [1, 0, 7, 4, 0],
            [3, 0, 1, 1, 0],
            [4, 0, 0, 0, 0],
            [2, 4, 1, 4, 0],
            [2, 4, 1, 4, 0],
            [5, 0, 0, 0, 0],
            [4, 4, 0, 0, 0],
            [0, 0, u64::MAX, u64::MAX, u64::MAX],
        ] {
            let record = Record { kind, base, label, position, format };
            said += &player.play(&record).1;
        }
        let first = "refused 12\nok 0\nok 0\nok 0\nok 1\nrefused 12\n";
        let sums = |words: u64, table| format!("sum {words}\nsum {table}\nsum 1\nsum 1\nsum 0\n");
        let before = sums(2 * 0x1400_0000, 0);
        let then = "ok 0\nrefused 13\nbad\nok 0\n";
        let after = sums(2 * 0x1400_0003, 10);
        assert_eq!(said, format!("{first}{before}{then}{after}ok 0\n"));
        let book = player.book;
        assert_eq!([book.labels.len(), book.sheet.len(), book.run.len()], [300, 1100, 2048]);
    }
}
