//! reader_speed: runs of four million words read back item by item, by the C entry and by a plain Rust program of the same rules, which writes
//! the same numbers, called as the entry is and compiled into the loop; in alternating rounds.

use std::hint::black_box;
use std::time::Instant;

use compare::plain_reader::{self as plain, NUMBERS};
use compare::reader::{any_half, any_place, displaced_word, group, wide, MOVK, MOVN, MOVZ};
use compare::timing::{median, ratio, timed};
use oracle::document::reader::{items, Item};
use oracle::lists::random::Random;
use vaimalofo::{raw, Refusal};

const WORDS: usize = 4_000_000;
const ROUNDS: usize = 31;

/// How many items a walk has found, and a sum of their numbers.
type Found = (u64, u64);

/// Reads on from every item's end. A number that an item does not have is what an item before it had, on all sides.
#[inline]
fn walk(words: &[u32], read: impl Fn(&[u32], usize, &mut [u64]) -> Result<u64, Refusal>) -> Found {
    let mut numbers = [0; NUMBERS];
    let (mut position, mut count, mut sum) = (0, 0, 0u64);
    loop {
        let kind = read(words, position, &mut numbers).expect("the position is in the run");
        if kind == plain::END {
            return (count, sum);
        }
        let [next, first, second, third, ..] = numbers;
        position = next as usize;
        count += 1;
        sum = [kind, first, second, third].into_iter().fold(sum, u64::wrapping_add);
    }
}

/// The plain program behind a call, one for each item, as the C entry is.
#[inline(never)]
fn called(words: &[u32], position: usize, numbers: &mut [u64]) -> Result<u64, Refusal> {
    plain::read(words, position, numbers)
}

type Side = fn(&[u32]) -> Found;
const SIDES: [(&str, Side); 3] = [
    ("the C entry", |words| walk(words, raw::read)),
    ("a plain Rust program, called", |words| walk(words, called)),
    ("the same, in the loop", |words| walk(words, plain::read)),
];

/// A word of a rule that the model reads as it is wanted.
fn such(random: &mut Random, rule: fn(&mut Random) -> u32, wanted: fn(&Item) -> bool) -> u32 {
    loop {
        let word = rule(random);
        if items(&[word]).iter().all(|(_, item)| wanted(item)) {
            return word;
        }
    }
}

fn unknown_word(random: &mut Random) -> u32 {
    such(random, |random| random.value() as u32, |item| matches!(item, Item::Unknown { .. }))
}

fn logical_word(random: &mut Random) -> u32 {
    such(random, |random| group(0b100100, random), |item| matches!(item, Item::Logical(_)))
}

/// A MOVZ or MOVN at 64 and so many words in all, of any halfwords.
fn constant(words: u64, random: &mut Random) -> Vec<u32> {
    let register = random.below(31) as u32;
    (0..words as u32)
        .map(|place| {
            let opc = if place == 0 { random.one_of(&[MOVZ, MOVN]) } else { MOVK };
            wide(64, opc, place, any_half(random), register)
        })
        .collect()
}

/// One of the five kinds: a constant of 1 to 4 words, a MOVK, a logical immediate, a displacement, an unknown word.
fn any_kind(random: &mut Random) -> Vec<u32> {
    match random.below(5) {
        0 => {
            let words = 1 + random.below(4);
            constant(words, random)
        }
        1 => {
            let (place, register) = (any_place(64, random), random.below(31) as u32);
            vec![wide(64, MOVK, place, any_half(random), register)]
        }
        2 => vec![logical_word(random)],
        3 => vec![displaced_word(random)],
        _ => vec![unknown_word(random)],
    }
}

/// The runs: what they have, and the rule of the next words.
type Rule = fn(&mut Random) -> Vec<u32>;
const RUNS: [(&str, Rule); 4] = [
    ("one unknown word, over and over", |_| vec![0xD503_201F]),
    ("unknown words, any", |random| vec![unknown_word(random)]),
    ("all kinds, in any order", any_kind),
    ("moves of four words", |random| constant(4, random)),
];

fn run(rule: Rule) -> Vec<u32> {
    let mut random = Random::new(24 << 48);
    let mut words = vec![];
    while words.len() < WORDS {
        words.extend(rule(&mut random));
    }
    words.truncate(WORDS);
    words
}

fn main() {
    let began = Instant::now();
    println!("{WORDS} words, {ROUNDS} rounds in turn, one thread, processor time; nothing is written but the numbers of an item");
    println!("medians: million words a second; and the time of the C entry divided by the side's in the same round");
    for (what, rule) in RUNS {
        let words = run(rule);
        let mut times = vec![vec![]; SIDES.len()];
        let mut totals = vec![(0, 0); SIDES.len()];
        for round in 0..ROUNDS {
            for k in 0..SIDES.len() {
                let at = (k + round) % SIDES.len();
                times[at].push(timed(began, || totals[at] = SIDES[at].1(black_box(&words))));
            }
        }
        let (count, sum) = totals[0];
        assert!(totals.iter().all(|total| *total == totals[0]), "{what}: {totals:x?}");
        println!("{what}: {count} items, sum {sum:x}");
        for ((side, _), seconds) in SIDES.iter().zip(&times) {
            let million = WORDS as f64 / median(seconds.clone()) / 1e6;
            println!("  {side:30} {million:8.1} {:8.3}", ratio(&times[0], seconds));
        }
    }
}
