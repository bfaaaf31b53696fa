//! A full sheet of uses of labels, recorded one by one and finished, by the C entries and by a plain Rust program of the same rules.

use std::hint::black_box;
use std::time::Instant;

use oracle::lists::random::Random;
use vaimalofo::{Address, Place, Use, WordPos};

use crate::labels::{Entries, C_ENTRIES};
use crate::parts::own_base;
use crate::plain_labels as plain;
use crate::timing::{fingerprint, median, ratio, timed};

/// Sheets in a round, of each side, and rounds.
const SHEETS: usize = 16;
const ROUNDS: usize = 61;

const USES: usize = 1024;
const LABELS: usize = 256;
const WORDS: usize = 4096;
const BASE: Address = Address(0x1234_5678);

const SIDES: [(&str, Entries); 2] = [
    ("the C entries", C_ENTRIES),
    (
        "a plain Rust program",
        Entries { bind: plain::bind, add: plain::use_label, finish: plain::finish },
    ),
];

/// A run of words, the labels that are bound in it, and the uses in the order in which they are recorded: every fourth word, one behind the
/// other, at any format, to any label. A scan for an earlier use of a word goes through all of them.
struct Program {
    words: Vec<u32>,
    labels: Vec<usize>,
    uses: Vec<Use>,
}

fn program() -> Program {
    let mut random = Random::new(19 << 48);
    let r = &mut random;
    let labels = (0..LABELS).map(|_| 1 + r.below(WORDS as u64 + 1) as usize).collect();
    let mut words = vec![0xD503_201F; WORDS];
    let uses = (0..USES).map(|i| {
        let (format, at) = (r.below(6), 4 * i);
        words[at] = own_base(format as usize, r);
        Use { label: r.below(LABELS as u64) as u32, at, format: format as u32 }
    });
    let uses = uses.collect();
    Program { words, labels, uses }
}

/// All uses, recorded in an empty sheet.
fn record(entries: &Entries, program: &Program, sheet: &mut [Use]) -> usize {
    let mut count = 0;
    for one in &program.uses {
        let at = Place { base: BASE, position: WordPos(one.at) };
        let (labels, words) = (&program.labels, &program.words);
        count = (entries.add)(sheet, count, labels, words, at, one.label, one.format)
            .expect("each word is named once, and there is room");
    }
    count
}

/// Times both sides in turn, and prints the figures.
pub fn report(began: Instant) {
    let program = program();
    let mut times = vec![[vec![], vec![], vec![]]; SIDES.len()];
    let mut totals = vec![0; SIDES.len()];
    for round in 0..ROUNDS {
        for k in 0..SIDES.len() {
            let at = (k + round) % SIDES.len();
            let (_, entries) = &SIDES[at];
            let mut sheet = vec![Use::default(); USES];
            let mut runs = vec![program.words.clone(); SHEETS];
            let mut count = 0;
            let recorded = timed(began, || {
                for _ in 0..SHEETS {
                    count = record(entries, black_box(&program), &mut sheet);
                }
            });
            let finished = timed(began, || {
                for run in &mut runs {
                    let answer = (entries.finish)(&sheet, count, &program.labels, run, BASE);
                    assert_eq!(black_box(answer), Ok(0), "every label is bound and in reach");
                }
            });
            for (column, seconds) in
                times[at].iter_mut().zip([recorded, finished, recorded + finished])
            {
                column.push(seconds);
            }
            let bytes: Vec<u8> = runs.concat().iter().flat_map(|word| word.to_le_bytes()).collect();
            totals[at] = fingerprint(&bytes);
        }
    }
    println!("{USES} uses of {LABELS} labels at all formats in a run of {WORDS} words, recorded one by one and finished; {ROUNDS} rounds of {SHEETS} such sheets in turn");
    println!("medians: microseconds a sheet; and the time of the C entries divided by the side's in the same round");
    println!("{:24}   record   finish     both   record   finish     both", "");
    for ((name, _), columns) in SIDES.iter().zip(&times) {
        print!("{name:24}");
        for seconds in columns {
            print!(" {:8.1}", median(seconds.clone()) * 1e6 / SHEETS as f64);
        }
        for (seconds, of_one) in columns.iter().zip(&times[0]) {
            print!(" {:8.3}", ratio(of_one, seconds));
        }
        println!();
    }
    for ((name, _), total) in SIDES.iter().zip(&totals) {
        println!("{name}: fingerprint of the finished words {total:x}");
    }
}
