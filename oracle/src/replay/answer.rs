//! An answer of the replay, and the lines that spell it.

use crate::document::No;

#[derive(Clone, Debug, PartialEq, Eq)]
pub enum Said {
    /// Numbers, in decimal.
    Numbers(Vec<u64>),
    /// A value of 64 bits, as two hexadecimal words, the high one first.
    Wide(u64),
    /// The number of a refusal.
    No(u32),
}

#[derive(Clone, Debug, PartialEq, Eq)]
pub struct Answer {
    pub said: Said,
    /// The lent run afterwards, for an entry that writes.
    pub run: Vec<u32>,
}

impl Answer {
    pub fn numbers(numbers: &[u64]) -> Self {
        let said = Said::Numbers(numbers.to_vec());
        Self { said, run: vec![] }
    }

    pub fn yes_no(yes: bool) -> Self {
        Self::numbers(&[u64::from(yes)])
    }

    pub fn wide(value: u64) -> Self {
        let said = Said::Wide(value);
        Self { said, run: vec![] }
    }

    pub fn no(number: u32) -> Self {
        let said = Said::No(number);
        Self { said, run: vec![] }
    }

    /// What an entry that writes said, and the run after it.
    pub fn wrote(position: Result<u64, No>, run: Vec<u32>) -> Self {
        let said = match position {
            Ok(position) => Said::Numbers(vec![position]),
            Err(No(number)) => Said::No(number),
        };
        Self { said, run }
    }

    /// The same with one number more behind the others, where there is one: the low bits of a
    /// target, or the length of an element. A refusal has none.
    pub fn carrying(mut self, number: Option<u64>) -> Self {
        if let Said::Numbers(numbers) = &mut self.said {
            numbers.extend(number);
        }
        self
    }

    pub fn is_ok(&self) -> bool {
        !matches!(self.said, Said::No(_))
    }

    pub fn is_no(&self, number: u32) -> bool {
        self.said == Said::No(number)
    }

    /// The lines, each with its end.
    pub fn text(&self) -> String {
        let mut text = match &self.said {
            Said::Numbers(numbers) => line(numbers.iter().map(|n| n.to_string())),
            Said::Wide(value) => words(&[(value >> 32) as u32, *value as u32]),
            Said::No(number) => format!("no {number}\n"),
        };
        text.extend(self.run.chunks(4).map(words));
        text
    }
}

fn line(items: impl Iterator<Item = String>) -> String {
    let items: String = items.map(|item| format!(" {item}")).collect();
    format!("ok{items}\n")
}

fn words(words: &[u32]) -> String {
    line(words.iter().map(|word| format!("{word:08x}")))
}

/// A byte run as words: four bytes to a word, low byte first, the last one short.
pub fn packed(bytes: &[u8]) -> Vec<u32> {
    let word = |four: &[u8]| four.iter().rev().fold(0, |word, byte| word << 8 | u32::from(*byte));
    bytes.chunks(4).map(word).collect()
}
