//! compare: the C entries against the Rust original and document 01, with progress and a summary.

use std::process::ExitCode;
use std::time::Instant;

use compare::decoder;
use compare::judges;
use compare::labels;
use compare::parts::{self, Slice};
use compare::reader;
use compare::retargets;
use compare::small;
use compare::tally::Tally;
use compare::work::{self, Part};
use oracle::replay::classes::Class;

const USAGE: &str = "compare --short            a slice of everything, for the gate
compare --full             everything: all 2^32 values, all distances, 100 million mixed values
  --slice K/N              of --full only the items that leave K when divided by N (N odd)
  --only NAME              one part: fields, moves, bases, displacements, mixed, damaged, wrapping, unaligned, decoder, floats, singles,
                           bytes, ids, retargets, labels, words, runs, written
  --threads T              (else as many as there are processors)
compare --judges [N]       N samples of each kind for GNU as and ld, objdump and qemu-aarch64 (else 20000)";

struct Options {
    full: bool,
    slice: Slice,
    only: Option<String>,
    threads: usize,
    judges: Option<usize>,
}

fn options(mut words: impl Iterator<Item = String>) -> Option<Options> {
    let threads = std::thread::available_parallelism().map_or(1, |n| n.get());
    let mut options =
        Options { full: false, slice: Slice { rest: 0, by: 1 }, only: None, threads, judges: None };
    let mut form = 0;
    while let Some(word) = words.next() {
        match word.as_str() {
            "--short" => form += 1,
            "--full" => {
                form += 1;
                options.full = true;
            }
            "--judges" => {
                form += 1;
                options.judges = Some(words.next().map_or(Some(20_000), |n| n.parse().ok())?);
            }
            "--slice" => {
                let text = words.next()?;
                let (rest, by) = text.split_once('/')?;
                options.slice = Slice { rest: rest.parse().ok()?, by: by.parse().ok()? };
            }
            "--only" => options.only = Some(words.next()?),
            "--threads" => options.threads = words.next()?.parse().ok()?,
            _ => return None,
        }
    }
    let Slice { rest, by } = options.slice;
    (form == 1 && by % 2 == 1 && rest < by && options.threads > 0).then_some(options)
}

/// How many items mixed, damaged, wrapping, unaligned, floats, bytes, labels, runs and written have: in millions, and in the short form.
const MILLIONS: [u64; 9] = [100, 100, 10, 10, 10, 10, 1, 10, 10];
const SHORT: [u64; 9] =
    [500_000, 1_000_000, 100_000, 200_000, 200_000, 200_000, 100_000, 200_000, 200_000];

/// The parts, at the scale asked for.
fn all_parts(options: &Options) -> Vec<Part> {
    let slice = options.slice;
    let (values, distances, counts) = match options.full {
        true => (slice, slice, MILLIONS.map(|millions| millions * 1_000_000 / slice.by)),
        false => (Slice { rest: 41, by: 257 }, Slice { rest: 5, by: 17 }, SHORT),
    };
    let [mixed, damaged, wrapping, unaligned, floats, bytes, scripts, runs, written] = counts;
    vec![
        parts::fields_32(values),
        parts::moves_32(values),
        parts::bases(values),
        parts::displacements(distances),
        parts::mixed(mixed),
        parts::damaged(damaged),
        parts::wrapping(wrapping),
        parts::unaligned(unaligned),
        decoder::decoder(distances),
        small::floats(floats),
        small::singles(values),
        small::bytes(bytes),
        small::ids(values),
        retargets::retargets(distances),
        labels::labels(scripts, labels::C_ENTRIES),
        reader::all_words(values, reader::C_ENTRIES),
        reader::runs(runs, reader::C_ENTRIES),
        reader::written(written, reader::C_ENTRIES),
    ]
}

/// What the Rust does in a class of requests at which it differs.
fn what_the_rust_does(class: Class) -> &'static str {
    match class {
        Class::AllOnes => "writes no word for all ones",
        Class::MovnUpperHalf => "sets bit 31 of a MOVN up to FFFFFFFF",
        Class::MoveRegister31 => "moves to register 31, the zero register",
        Class::MoveRegisterAbove31 => "lets a register above 31 run into the immediate of a move",
        Class::PatchableRegister => "masks the register of a patchable move",
        Class::LogicalWidth => "goes on at a width other than 32 and 64",
        Class::LogicalRegister => "masks the registers of a logical word",
        Class::DistanceCut => "cuts a distance out of range",
        Class::BaseOred => "ors into a base with field bits set",
        Class::LdrSplit => "splits the field of LDR 19 as for ADR",
        Class::TargetFromFour => "counts targets from four bytes on",
        Class::TargetOverflow => "overflows at a target too far for 64 signed bits",
        Class::PageTarget => "refuses an ADRP to a target inside a page",
        Class::Unaligned => "has no base address that it could refuse",
        Class::WrongForm => "places a distance in any base, or refuses one off the step",
        Class::Untested => "encodes a float or a byte mask that it has not tested",
        Class::Added => "has no such entry, or cannot be asked this (no room, for one)",
        _ => "differs in a class that no C entry has",
    }
}

fn report(part: &Part, tally: &Tally, seconds: f64) {
    println!("{}: {}", part.name, part.what);
    println!("  {} calls in {seconds:.1} s", tally.calls());
    println!("  {:>12} as document 01 and the Rust", tally.same);
    for (class, count) in &tally.differs {
        println!("  {count:>12} as document 01; the Rust {}", what_the_rust_does(*class));
    }
    if tally.alone > 0 {
        println!("  {:>12} as document 01; the Rust was not asked", tally.alone);
    }
    for ((call, refusal), count) in &tally.answers {
        match refusal {
            0 => println!("  {count:>12} times {call} accepted"),
            _ => println!("  {count:>12} times {call} refused with {refusal}"),
        }
    }
    for failure in &tally.failures {
        println!("  FAILED {failure}");
    }
}

fn main() -> ExitCode {
    let Some(options) = options(std::env::args().skip(1)) else {
        eprintln!("{USAGE}");
        return ExitCode::from(2);
    };
    if let Some(samples) = options.judges {
        return if judges::run(samples) { ExitCode::SUCCESS } else { ExitCode::FAILURE };
    }
    let began = Instant::now();
    let (mut calls, mut failed, mut ran) = (0, 0, 0);
    for part in all_parts(&options) {
        if options.only.as_ref().is_some_and(|only| only != part.name) {
            continue;
        }
        let (tally, seconds) = work::run(&part, options.threads);
        report(&part, &tally, seconds);
        calls += tally.calls();
        failed += tally.failed;
        ran += 1;
    }
    let seconds = began.elapsed().as_secs_f64();
    println!(
        "compare: {calls} calls, {failed} failed ({ran} parts, {} threads, {seconds:.1} s)",
        options.threads
    );
    if failed == 0 && calls > 0 {
        ExitCode::SUCCESS
    } else {
        ExitCode::FAILURE
    }
}
