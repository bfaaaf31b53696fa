//! speed: two million mixed values, each a move written into a run of bytes and its logical fields at width 64, with their element's
//! length, by the C entries, by the Rust original, which has no length, and by a plain Rust program of document 01's rules; the same values,
//! registers and run, in alternating rounds. Each argument is a shared object made of the library of another build, which is then a side
//! too. Then a full sheet of uses of labels, recorded and finished, by the C entries and by a plain Rust program.

use std::env;
use std::hint::black_box;
use std::process;
use std::time::Instant;

use compare::library::Library;
use compare::timing::{fingerprint, median, ratio, timed};
use compare::{at_zero, label_speed, put, values};
use oracle::direct;
use oracle::lists::random::Random;
use vaimalofo::raw;

/// How many values, and how many rounds of each.
const VALUES: usize = 2_000_000;
const ROUNDS: usize = 61;

/// The value list: of each value one of the eight kinds of `values::mixed` at random, from one generator of the oracle's seed.
fn value_list() -> Vec<u64> {
    let mut random = Random::new(7 << 48);
    (0..VALUES)
        .map(|_| {
            let kind = random.below(8);
            values::mixed(&mut random, kind)
        })
        .collect()
}

fn register(i: usize) -> u32 {
    i as u32 % 31
}

type Moves = dyn Fn(&[u64], &mut [u8]) -> usize;
type FieldSums = dyn Fn(&[u64]) -> Sums;

/// A side: its name, how it writes the words of all values one behind the other, and how it sums up their fields.
struct Side {
    name: String,
    moves: Box<Moves>,
    fields: Box<FieldSums>,
}

/// The sum of all fields, and that of their elements' lengths: 0 of the Rust original, and of a library from before request d.
type Sums = [u64; 2];

fn side(
    name: &str,
    moves: impl Fn(&[u64], &mut [u8]) -> usize + 'static,
    fields: impl Fn(&[u64]) -> Sums + 'static,
) -> Side {
    Side { name: name.to_string(), moves: Box::new(moves), fields: Box::new(fields) }
}

/// The three sides, and one for each library.
fn sides(paths: impl Iterator<Item = String>) -> Vec<Side> {
    let mut all = vec![
        side("the C entries", entry_moves, entry_fields),
        side("the Rust original", original_moves, original_fields),
        side("a plain Rust program", plain_moves, plain_fields),
    ];
    for path in paths {
        // SAFETY: whoever names a file here has made it as host/compare/README.md says.
        let Some(library) = (unsafe { Library::load(&path) }) else {
            eprintln!("speed: {path}: no shared object with the entries (host/compare/README.md)");
            process::exit(2);
        };
        all.push(side(
            &path,
            move |values, run| library_moves(library, values, run),
            move |values| library_fields(library, values),
        ));
    }
    all
}

fn entry_moves(values: &[u64], run: &mut [u8]) -> usize {
    let mut at = at_zero(0);
    for (i, value) in values.iter().enumerate() {
        at = raw::mov(run, at, *value, register(i)).expect("there is room");
    }
    at.position.0
}

/// The words of each value put one behind the other, low byte first.
#[inline]
fn put_all(
    values: &[u64],
    run: &mut [u8],
    words_of: impl Fn(u64, u32) -> ([u32; 4], usize),
) -> usize {
    let mut at = 0;
    for (i, value) in values.iter().enumerate() {
        let (words, count) = words_of(*value, register(i));
        put(run, at, &words[..count]);
        at += count;
    }
    at
}

fn original_moves(values: &[u64], run: &mut [u8]) -> usize {
    put_all(values, run, |value, rd| {
        let mut words = [0; 4];
        let count = direct::encode_mov_sequence64(&mut words, value, rd, 1);
        (words, count)
    })
}

fn plain_moves(values: &[u64], run: &mut [u8]) -> usize {
    put_all(values, run, batch_plain::move_words)
}

/// N, S and R of all values that have some, in one number each, summed up, and beside them the lengths: every side is asked for all that
/// it has.
#[inline]
fn sum_fields(values: &[u64], fields_of: impl Fn(u64) -> Option<[u32; 4]>) -> Sums {
    let fields = values.iter().filter_map(|value| fields_of(*value));
    fields.fold([0, 0], |[sum, lengths], [n, s, r, length]| {
        [sum + u64::from(n << 12 | s << 6 | r), lengths + u64::from(length)]
    })
}

fn entry_fields(values: &[u64]) -> Sums {
    sum_fields(values, |value| {
        raw::logical_fields(value, 64).ok().map(|f| [f.n, f.s, f.r, f.length])
    })
}

fn original_fields(values: &[u64]) -> Sums {
    sum_fields(values, |value| direct::encode_logical_imm(value, 64).map(|[n, s, r]| [n, s, r, 0]))
}

fn plain_fields(values: &[u64]) -> Sums {
    sum_fields(values, |value| batch_plain::logical_fields(value, 64))
}

fn library_moves(library: Library, values: &[u64], run: &mut [u8]) -> usize {
    let mut at = 0;
    for (i, value) in values.iter().enumerate() {
        let answer = library.mov(run, at, *value, register(i));
        assert_eq!(answer as u8, 0, "there is room");
        at += (answer >> 8) as usize;
    }
    at
}

fn library_fields(library: Library, values: &[u64]) -> Sums {
    sum_fields(values, |value| {
        let answer = library.logical_fields(value, 64);
        let byte = |at: u32| u32::from((answer >> at) as u8);
        (byte(0) == 0).then_some([byte(24), byte(16), byte(8), byte(32)])
    })
}

fn main() {
    let began = Instant::now();
    let sides = sides(env::args().skip(1));
    let values = value_list();
    let mut run = vec![0; 16 * VALUES];
    let mut times = vec![[vec![], vec![], vec![]]; sides.len()];
    let mut totals = vec![(0, 0, [0, 0]); sides.len()];
    for round in 0..ROUNDS {
        for k in 0..sides.len() {
            let at = (k + round) % sides.len();
            let Side { moves, fields, .. } = &sides[at];
            run.fill(0);
            let (mut words, mut sums) = (0, [0, 0]);
            let moved = timed(began, || words = moves(black_box(&values), &mut run));
            let found = timed(began, || sums = fields(black_box(&values)));
            for (column, seconds) in times[at].iter_mut().zip([moved, found, moved + found]) {
                column.push(seconds);
            }
            totals[at] = (words, fingerprint(&run[..4 * words]), sums);
        }
    }
    report(&sides, &times, &totals);
    label_speed::report(began);
}

fn report(sides: &[Side], times: &[[Vec<f64>; 3]], totals: &[(usize, u64, Sums)]) {
    println!("{VALUES} mixed values (values::mixed, seed and stream in speed.rs), {ROUNDS} rounds in turn, one thread, processor time");
    println!("the run of {} bytes was cleared before each round, outside of the time", 16 * VALUES);
    // The library named last, or the C entries where none is named.
    let one = if env::args().len() > 1 { sides.len() - 1 } else { 0 };
    println!(
        "medians: nanoseconds a value; and the time of {} divided by the side's in the same round",
        sides[one].name
    );
    println!("{:24}    moves   fields     both    moves   fields     both", "");
    for (side, columns) in sides.iter().zip(times) {
        print!("{:24}", side.name);
        for seconds in columns {
            print!(" {:8.2}", median(seconds.clone()) * 1e9 / VALUES as f64);
        }
        for (seconds, of_one) in columns.iter().zip(&times[one]) {
            print!(" {:8.3}", ratio(of_one, seconds));
        }
        println!();
    }
    for (side, (words, bytes, [sum, lengths])) in sides.iter().zip(totals) {
        println!(
            "{}: {words} words, fingerprint {bytes:x}, fields sum {sum:x}, lengths sum {lengths:x}",
            side.name
        );
    }
}
