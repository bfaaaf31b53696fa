//! Outside judges: words that the C entries give, handed over a pipe to scripts that ask GNU as and ld, objdump and qemu-aarch64.
//!
//! But for forms and words that are read, half of the samples are written at a base address just below 2^64. Of the tools GNU ld alone puts
//! an instruction there; QEMU and GNU as have addresses of their own. Moves and logical words are the same at any address, and of a
//! displacement GNU as is told the distance.

use std::fmt::Write as _;
use std::io::{ErrorKind, Write};
use std::path::Path;
use std::process::{Command, Stdio};

use oracle::document::displacements::{page, FORMATS};
use oracle::document::logical::masks;
use oracle::lists::random::Random;
use vaimalofo::{raw, Address, Place, Reached, Refusal, Use, WordPos};

use crate::parts::own_base;
use crate::plain_reader::{CONSTANT, DISPLACEMENT, LOGICAL, LONE_MOVK, NUMBERS, UNKNOWN};
use crate::reader::{any_half, any_place, behind, displaced_word, group, wide, MOVK, MOVN, MOVZ};
use crate::retargets::any_field;
use crate::{at_zero, put, values, words};

/// Lines that a script is given at a time.
const BATCH: usize = 20_000;

/// Words asked for their form, and words read, for each sample of another kind.
const FORMS: usize = 50;
const READINGS: usize = 5;

/// Whole programs with labels, whatever the samples are.
const PROGRAMS: u64 = 20;

/// Every judge with `samples` of its kind; whether none of them found a difference.
pub fn run(samples: usize) -> bool {
    let moved = judged("moves_qemu.py", "moves, run under qemu-aarch64", &moves(samples));
    let logical =
        judged("logical_as.py", "logical words, by GNU as and objdump", &logical(samples));
    let near = judged("displacements_as.py", "displacements, by GNU as", &displacements(samples));
    let reached =
        judged("targets_ld.py", "targets, ADRPs with their low bits, by GNU ld", &targets(samples));
    let formed =
        judged("forms_objdump.py", "words at all formats, by objdump", &forms(samples * FORMS));
    let labelled =
        judged("labels_as.py", "whole programs with labels, by GNU as and ld", &programs());
    let read =
        judged("reader_objdump.py", "words read alone, by objdump", &readings(samples * READINGS));
    let joined = judged(
        "moves_qemu.py",
        "runs of wide moves read as one constant, run under qemu-aarch64",
        &joined(samples),
    );
    moved && logical && near && reached && formed && labelled && read && joined
}

/// One judge's verdict on the lines, batch by batch. A missing tool or script is said and is no failure.
fn judged(script: &str, what: &str, lines: &[String]) -> bool {
    let path = Path::new(env!("CARGO_MANIFEST_DIR")).join("../../judges").join(script);
    println!("judges: {} {what}", lines.len());
    if !path.exists() {
        println!("  skipped: judges/{script} is not there");
        return true;
    }
    lines.chunks(BATCH).all(|batch| match ask(&path, &batch.concat()) {
        Ok((said, passed)) => {
            said.lines().for_each(|line| println!("  {line}"));
            passed
        }
        Err(why) if why.kind() == ErrorKind::NotFound => {
            println!("  skipped: python3 is missing");
            true
        }
        Err(why) => {
            println!("  FAILED: {why}");
            false
        }
    })
}

/// What a script prints about the text, and whether it ended well.
fn ask(script: &Path, text: &str) -> std::io::Result<(String, bool)> {
    let mut python = Command::new("python3");
    let mut child = python.arg(script).stdin(Stdio::piped()).stdout(Stdio::piped()).spawn()?;
    let mut input = child.stdin.take().expect("standard input is a pipe");
    let output = std::thread::scope(|scope| {
        scope.spawn(move || input.write_all(text.as_bytes()));
        child.wait_with_output()
    })?;
    Ok((String::from_utf8_lossy(&output.stdout).into_owned(), output.status.success()))
}

/// A run of eight words, before a call.
const RUN: [u8; 32] = [0; 32];

/// A place in it from which four words have room: at a base address just below 2^64, where addresses wrap, or at any.
fn place(random: &mut Random) -> Place {
    let base = match random.below(2) {
        0 => values::high_base(random),
        _ => random.value() >> random.one_of(&[0, 0, 32, 44]) & !3,
    };
    Place { base: Address(base), position: WordPos(random.below(5) as usize) }
}

fn word_at(run: &[u8], at: Place) -> u32 {
    words(run)[at.position.0]
}

/// `VALUE RD WORD..`: mixed values as moves, and every fourth as a patchable move, at 64 and 32 in turn.
fn moves(samples: usize) -> Vec<String> {
    let mut random = Random::new(4 << 48);
    (0..samples as u64).map(|i| moved(&mut random, i)).collect()
}

fn moved(random: &mut Random, i: u64) -> String {
    let (value, rd) = (values::mixed(random, i / 4), random.below(31) as u32);
    let (mut run, at) = (RUN, place(random));
    let (left, end) = match i % 8 {
        3 => (value, raw::patchable_mov(&mut run, at, value, 64, rd)),
        7 => (value & 0xFFFF_FFFF, raw::patchable_mov(&mut run, at, value, 32, rd)),
        _ => (value, raw::mov(&mut run, at, value, rd)),
    };
    let end = end.expect("the register is below 31 and there is room");
    sequence(left, rd, &words(&run)[at.position.0..end.position.0])
}

/// `VALUE RD WORD..`
fn sequence(value: u64, rd: u32, words: &[u32]) -> String {
    let mut line = format!("{value:x} {rd}");
    for word in words {
        write!(line, " {word:08x}").expect("a string can be written");
    }
    line + "\n"
}

/// `OPERATION WIDTH RN RD VALUE WORD`: every value that has fields, at both widths, then mixed values.
fn logical(samples: usize) -> Vec<String> {
    let mut random = Random::new(5 << 48);
    let mut asked: Vec<(u32, u64)> = Vec::new();
    for width in [32, 64] {
        let mut all: Vec<u64> = masks(width).keys().copied().collect();
        all.sort_unstable();
        asked.extend(all.into_iter().map(|value| (width, value)));
    }
    asked.extend((0..samples as u64).map(|i| {
        let value = values::mixed(&mut random, i / 2);
        if i % 2 == 0 {
            (64, value)
        } else {
            (32, value & 0xFFFF_FFFF)
        }
    }));
    asked.into_iter().map(|(width, value)| logical_line(&mut random, width, value)).collect()
}

fn logical_line(random: &mut Random, width: u32, value: u64) -> String {
    let [operation, rn, rd] = [4, 32, 32].map(|n| random.below(n) as u32);
    let (mut run, at) = (RUN, place(random));
    let word = match raw::logical_word(&mut run, at, operation, value, width, rn, rd) {
        Ok(_) => format!("{:08x}", word_at(&run, at)),
        Err(_) => "no".to_string(),
    };
    format!("{operation} {width} {rn} {rd} {value:x} {word}\n")
}

/// `FORMAT BASE DISTANCE WORD`: the ends of each format, then distances in its range; by distance, or by the target that lies so far; from
/// the base, or put into a word of it that has another distance.
fn displacements(samples: usize) -> Vec<String> {
    let mut random = Random::new(6 << 48);
    let mut lines = Vec::new();
    for i in 0..samples {
        let (format, row) = (i % 6, &FORMATS[i % 6]);
        let steps = (row.greatest - row.least) / row.step;
        let step = match i / 6 {
            0 => 0,
            1 => steps,
            _ => random.below(steps as u64 + 1) as i64,
        };
        lines.push(displaced(&mut random, format, row.least + step * row.step));
    }
    lines
}

fn displaced(random: &mut Random, format: usize, distance: i64) -> String {
    let (number, base) = (format as u32, own_base(format, random));
    let (mut run, at) = (RUN, place(random));
    let target = page(number, at.address().0).wrapping_add_signed(distance);
    put(&mut run, at.position.0, &[any_field(format, base, random)]);
    let answer = match random.below(4) {
        0 => raw::displacement(&mut run, at, number, base, distance),
        1 => raw::displacement_to(&mut run, at, number, base, target).map(|to| to.place),
        2 => raw::retarget(&mut run, at, number, distance),
        _ => raw::retarget_to(&mut run, at, number, target).map(|to| to.place),
    };
    answer.expect("the distance is in range, and the field is clear or cleared");
    format!("{format} {base:08x} {distance} {:08x}\n", word_at(&run, at))
}

/// `ADDRESS BASE TARGET WORD`, of an ADRP with the low bits behind it, or `far`: every second an ADRP, to any place in a page, and else
/// each format in turn; targets in range, and now and then up to 16 steps beyond it. Half are put into a word that has another target.
fn targets(samples: usize) -> Vec<String> {
    let mut random = Random::new(10 << 48);
    (0..samples).map(|i| targeted(&mut random, if i % 2 == 0 { 4 } else { i / 2 % 6 })).collect()
}

fn targeted(random: &mut Random, format: usize) -> String {
    let (number, row, base) = (format as u32, &FORMATS[format], own_base(format, random));
    let all = ((row.greatest - row.least) / row.step) as u64 + 1;
    let steps = match random.below(16) {
        0 => random.below(32).wrapping_sub(16),
        1 => all - 16 + random.below(32),
        _ => random.below(all),
    };
    let (mut run, at) = (RUN, place(random));
    let Address(address) = at.address();
    let least = page(number, address).wrapping_add_signed(row.least);
    let inside = if format == 4 { random.below(4096) } else { 0 };
    let target = least.wrapping_add(steps.wrapping_mul(row.step as u64)).wrapping_add(inside);
    put(&mut run, at.position.0, &[any_field(format, base, random)]);
    let answer = match random.below(2) {
        0 => raw::displacement_to(&mut run, at, number, base, target),
        _ => raw::retarget_to(&mut run, at, number, target),
    };
    let said = match answer {
        Ok(Reached { low12: Some(low), .. }) => format!("{:08x} {low}", word_at(&run, at)),
        Ok(Reached { low12: None, .. }) => format!("{:08x}", word_at(&run, at)),
        Err(Refusal::Range) => "far".to_string(),
        Err(refusal) => refusal.to_string(),
    };
    format!("{address:x} {base:08x} {target:x} {said}\n")
}

/// `WORD ASKED SAID`: the formats asked, all of them, and those whose form the word was said to have.
fn forms(samples: usize) -> Vec<String> {
    let mut random = Random::new(9 << 48);
    (0..samples as u64).map(|i| form_line(form_word(&mut random, i))).collect()
}

/// Half of the words are any; the others a base with one bit turned over, a base's top byte with any bits below, and each top byte in turn.
fn form_word(random: &mut Random, i: u64) -> u32 {
    let any = random.value() as u32;
    let base = own_base(random.below(6) as usize, random);
    match i % 6 {
        1 => base ^ 1 << random.below(32),
        3 => base & 0xFF00_0000 | any >> 8,
        5 => ((i / 6) as u32) << 24 | any >> 8,
        _ => any,
    }
}

fn form_line(word: u32) -> String {
    let mut run = [0; 4];
    let mut said = String::new();
    for (format, row) in (0..).zip(&FORMATS) {
        let answer = raw::displacement(&mut run, at_zero(0), format, word, row.step);
        let form = answer != Err(Refusal::WrongForm);
        assert_eq!(raw::has_form(format, word), Ok(form), "{word:08x} at format {format}");
        if form {
            write!(said, "{format}").expect("a string can be written");
        }
    }
    let said = if said.is_empty() { "-" } else { &said };
    format!("{word:08x} 012345 {said}\n")
}

/// `ADDRESS LABELS WORDS FINISHED`: programs whose words reach labels, forward and backward, at all formats: the first with 1,024 words that
/// do, the others with up to so many, between words that do not. Labels are bound and used in any order, and the sheet is finished once.
fn programs() -> Vec<String> {
    (0..PROGRAMS).map(|i| program(&mut Random::new((18 << 48) + i), i)).collect()
}

fn program(random: &mut Random, i: u64) -> String {
    let uses = if i == 0 { 1024 } else { 1 + random.below(1024) as usize };
    let words = uses + random.below(2048) as usize;
    let labels = 1 + random.below(256) as usize;
    // Every fourth at the end of all addresses, which some of them wrap around.
    let base = match i % 4 {
        0 => Address((4 * random.below(2 * words as u64)).wrapping_neg()),
        _ => Address(random.value() >> random.one_of(&[0, 0, 32, 44]) & !3),
    };
    let at = |position| Place { base, position: WordPos(position) };
    let mut run: Vec<u32> = (0..words).map(|_| random.value() as u32).collect();
    let (mut table, mut sheet) = (vec![0; labels], vec![Use::default(); uses]);
    let mut reaching = positions(words, uses, random);
    let mut unbound: Vec<u32> = (0..labels as u32).collect();
    let mut reached = vec![None; words];
    for count in 0..uses {
        // The labels are bound on the way.
        if random.below(2) == 0 {
            bind_one(&mut table, &run, base, &mut unbound, random);
        }
        let position = reaching.pop().expect("there are as many as uses");
        let (format, label) = (random.below(6) as u32, random.below(labels as u64) as u32);
        run[position] = own_base(format as usize, random);
        reached[position] = Some(label);
        let added = raw::use_label(&mut sheet, count, &table, &run, at(position), label, format);
        assert_eq!(added, Ok(count + 1), "use {count} of program {i}");
    }
    while !unbound.is_empty() {
        bind_one(&mut table, &run, base, &mut unbound, random);
    }
    let before = run.clone();
    let finished = raw::finish_labels(&sheet, uses, &table, &mut run, base);
    assert_eq!(finished, Ok(0), "finishing program {i}");
    let bound = (0..labels).map(|label| format!("{label}@{}", table[label] - 1));
    let written = before.iter().zip(&reached).map(|(word, label)| match label {
        Some(label) => format!("{word:08x}>{label}"),
        None => format!("{word:08x}"),
    });
    let given = run.iter().map(|word| format!("{word:08x}"));
    let [bound, written, given] =
        [bound.collect::<Vec<_>>(), written.collect(), given.collect()].map(|all| all.join(","));
    format!("{:x} {bound} {written} {given}\n", base.0)
}

/// Some label that is not bound yet, if there is one, bound to any place of the run, its end too.
fn bind_one(
    table: &mut [usize],
    run: &[u32],
    base: Address,
    unbound: &mut Vec<u32>,
    random: &mut Random,
) {
    if unbound.is_empty() {
        return;
    }
    let label = unbound.swap_remove(random.below(unbound.len() as u64) as usize);
    let position = WordPos(random.below(run.len() as u64 + 1) as usize);
    let bound = raw::bind_label(table, run, Place { base, position }, label);
    assert_eq!(bound, Ok(()), "label {label}");
}

/// So many of the positions below a number, in any order.
fn positions(below: usize, count: usize, random: &mut Random) -> Vec<usize> {
    let mut all: Vec<usize> = (0..below).collect();
    for i in 0..count {
        all.swap(i, i + random.below((below - i) as u64) as usize);
    }
    all.truncate(count);
    all
}

/// `WORD KIND NUMBER..`: words of all kinds, each read alone in its run.
fn readings(samples: usize) -> Vec<String> {
    let mut random = Random::new(22 << 48);
    (0..samples as u64).map(|i| reading(some_word(&mut random, i))).collect()
}

/// A word of the group of wide moves, or of logical immediates, with any fields; a displacement, or one with a bit turned over; or any.
fn some_word(random: &mut Random, i: u64) -> u32 {
    match i % 8 {
        0 | 1 => group(0b100101, random),
        2 | 3 => group(0b100100, random),
        4 | 5 => displaced_word(random),
        6 => displaced_word(random) ^ 1 << random.below(32),
        _ => random.value() as u32,
    }
}

fn reading(word: u32) -> String {
    let mut numbers = [0; NUMBERS];
    let kind = raw::read(&[word], 0, &mut numbers).expect("a word stands there");
    let [next, a, b, c, d, value, ..] = numbers;
    assert_eq!(next, 1, "{word:08x} is alone");
    let said = match kind {
        CONSTANT => format!("constant {a} {b} {c:#x}"),
        LONE_MOVK => format!("movk {a} {b} {c:#x} {d}"),
        LOGICAL => format!("logical {a} {b} {c} {d} {value:#x}"),
        DISPLACEMENT => format!("displacement {a} {b:#x} {}", c as i64),
        UNKNOWN => "unknown".to_string(),
        other => format!("kind {other}"),
    };
    format!("{word:08x} {said}\n")
}

/// `VALUE RD WORD..`: constants of 1 to 12 wide moves, each read at the start of a run in which it ends.
fn joined(samples: usize) -> Vec<String> {
    let mut random = Random::new(23 << 48);
    (0..samples).map(|_| join(&mut random)).collect()
}

fn join(random: &mut Random) -> String {
    let (size, rd) = (random.one_of(&[32, 64]), random.below(31) as u32);
    let count = 1 + random.below(12) as usize;
    let opc = random.one_of(&[MOVZ, MOVN]);
    let mut run: Vec<u32> = (0..count)
        .map(|i| {
            let opc = if i == 0 { opc } else { MOVK };
            wide(size, opc, any_place(size, random), any_half(random), rd)
        })
        .collect();
    run.extend(behind(&run, random));
    let mut numbers = [0; NUMBERS];
    let kind = raw::read(&run, 0, &mut numbers);
    let [next, register, _, value, ..] = numbers;
    assert_eq!((kind, next, register), (Ok(CONSTANT), count as u64, rd.into()), "{run:08x?}");
    sequence(value, rd, &run[..count])
}
