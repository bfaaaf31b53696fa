//! The lines of an archive that is read back, as the gate's program `archive` prints them, over the
//! model of the reader.

pub mod rule;

use std::fmt::Write;

use crate::document::moves;
use crate::document::reader::{Item, Logical, items};

const OPERATIONS: [&str; 4] = ["and", "orr", "eor", "ands"];

fn constant(register: u32, size: u32, value: u64, words: u64) -> String {
    let mut line =
        format!("constant register {register} size {size} value {value:016x} words {words}");
    let fewest = moves::move_words(value, register).map_or(words, |made| made.len() as u64);
    if fewest < words {
        write!(line, " could be {fewest}").expect("a string takes all");
    }
    line
}

fn logical(l: &Logical) -> String {
    let Logical { width, rn, rd, value, n, s, r, length, .. } = l;
    let operation = OPERATIONS[l.operation as usize];
    let normal = if l.normal { "" } else { " not normal" };
    format!(
        "logical {operation} width {width} rn {rn} rd {rd} value {value:016x} \
         fields {n} {s} {r} length {length}{normal}"
    )
}

/// What a line says behind the position.
fn said(item: &Item) -> String {
    match item {
        Item::Constant { register, size, value, words } => {
            constant(*register, *size, *value, *words)
        }
        Item::LoneMovk { register, size, halfword, place } => {
            format!("movk register {register} size {size} halfword {halfword:08x} place {place}")
        }
        Item::Logical(l) => logical(l),
        Item::Displacement { format, base, distance } => {
            format!("displacement format {format} base {base:08x} distance {distance}")
        }
        Item::Unknown { word, .. } => format!("unknown {word:08x}"),
    }
}

/// What is printed for the bytes of an archive, low byte first: a line for each item, and one for a
/// tail of fewer than four bytes.
pub fn text(bytes: &[u8]) -> String {
    let (words, tail) = bytes.as_chunks::<4>();
    let words: Vec<u32> = words.iter().map(|word| u32::from_le_bytes(*word)).collect();
    let mut text = String::new();
    for (position, item) in items(&words) {
        writeln!(text, "{position} {}", said(&item)).expect("a string takes all");
    }
    if !tail.is_empty() {
        writeln!(text, "cut at {}", 4 * words.len()).expect("a string takes all");
    }
    text
}

#[cfg(test)]
mod tests {
    use super::*;

    fn bytes(words: &[u32]) -> Vec<u8> {
        words.iter().flat_map(|word| word.to_le_bytes()).collect()
    }

    #[test]
    fn a_line_of_each_kind() {
        let words = [
            0x9280_0003,
            0xD503_201F,
            0xD282_4680,
            0xF2A0_0000,
            0xF2C0_0000,
            0xF2E0_0000,
            0xF2C2_4683,
            0x9240_1C64,
            0x9202_F020,
            0x17FF_FFFF,
        ];
        let mut run = bytes(&words);
        run.extend([1, 2]);
        let lines = [
            "0 constant register 3 size 64 value ffffffffffffffff words 1",
            "1 unknown d503201f",
            "2 constant register 0 size 64 value 0000000000001234 words 4 could be 1",
            "6 movk register 3 size 64 halfword 00001234 place 2",
            "7 logical and width 64 rn 3 rd 4 value 00000000000000ff fields 1 7 0 length 64",
            "8 logical and width 64 rn 1 rd 0 value 5555555555555555 fields 0 60 2 length 2 not normal",
            "9 displacement format 0 base 14000000 distance -4",
            "cut at 40",
        ];
        assert_eq!(text(&run), lines.join("\n") + "\n");
        assert_eq!(text(&[]), "");
        assert_eq!(text(&[0]), "cut at 0\n");
    }

    /// The stored input has an item of every kind, and a tail.
    #[test]
    fn every_kind_is_stored() {
        let text = text(&rule::stored());
        for kind in ["constant", "movk", "displacement", "unknown"] {
            assert!(text.contains(&format!(" {kind} ")), "{kind}");
        }
        for operation in OPERATIONS {
            for width in [32, 64] {
                let name = format!(" logical {operation} width {width} ");
                let lines: Vec<&str> = text.lines().filter(|line| line.contains(&name)).collect();
                for normal in [true, false] {
                    let found = lines.iter().any(|line| line.ends_with(" not normal") != normal);
                    assert!(found, "{name}, {normal}");
                }
            }
        }
        for format in 0..6 {
            assert!(text.contains(&format!(" format {format} ")), "{format}");
        }
        for words in [1, 2, 3, 4, 12] {
            assert!(text.contains(&format!(" words {words}")), "{words}");
        }
        assert!(text.contains(" could be ") && text.lines().last().unwrap().starts_with("cut at "));
    }

    /// The constants of the stored joins stand over the ends of the program's buffers.
    #[test]
    fn joins_cross_the_buffers() {
        let input = rule::joined();
        assert!(input.len() < 200_000);
        let text = text(&input);
        let spans: Vec<(usize, usize)> = text
            .lines()
            .filter_map(|line| {
                let (position, rest) = line.split_once(" constant ")?;
                let words = rest.split_once(" words ")?.1.split(' ').next()?;
                let at: usize = position.parse().ok()?;
                Some((at, at + words.parse::<usize>().ok()?))
            })
            .collect();
        let over = |end: usize| spans.iter().any(|(at, next)| *at < end && end < *next);
        assert!(over(rule::BUFFER) && over(2 * rule::BUFFER) && !over(3 * rule::BUFFER));
        assert!(spans.iter().any(|(_, next)| *next == 3 * rule::BUFFER));
    }
}
