//! Document 02's request d: the length of a mask's element, found again without Arm's rule.

use std::collections::BTreeMap;

use oracle::document::logical::{masks, normalise};
use oracle::replay::answer::Answer;
use oracle::replay::by_rust::Heard;

/// A value of so many bits, turned within them.
fn turned(value: u64, by: u32, width: u32) -> u64 {
    (0..width).map(|k| (value >> ((k + by) % width) & 1) << k).sum()
}

/// "Repeats every 8 bits": the length is the least turn, from 1 on, that leaves the value.
#[test]
fn the_length_is_the_least_turn_that_leaves_the_value() {
    for width in [32, 64] {
        for (value, [.., length]) in masks(width) {
            let least = (1..=width).find(|by| turned(*value, *by, width) == *value);
            assert_eq!(least, Some(*length), "{value:x} at {width}");
        }
    }
}

/// As many masks as Arm has: with e bits in an element, 1 to e - 1 ones at any of e places.
#[test]
fn each_length_has_its_masks() {
    let short = [(2, 2), (4, 12), (8, 56), (16, 240), (32, 992)];
    let long = [&short[..], &[(64, 4032)]].concat();
    for (width, counts, all) in [(32, &short[..], 1302), (64, &long[..], 5334)] {
        let mut met = BTreeMap::new();
        for [.., length] in masks(width).values() {
            *met.entry(*length).or_insert(0) += 1;
        }
        assert_eq!(met.into_iter().collect::<Vec<_>>(), counts);
        assert_eq!(masks(width).len(), all);
    }
}

/// N and S stay when normalised, and R is reduced by the length. N and S fix the length: it is the
/// same at both widths and whatever R.
#[test]
fn n_and_s_fix_the_length() {
    let mut lengths = BTreeMap::new();
    for width in [32, 64] {
        for [n, s, r] in (0..2 * 64 * 64).map(|i| [i >> 12, i >> 6 & 63, i & 63]) {
            if let Ok(answer) = normalise([n, s, r], width) {
                let length = *lengths.entry((n, s)).or_insert(answer[3]);
                assert_eq!(answer, [n, s, r % length, length], "{n} {s} {r} at {width}");
            }
        }
    }
    // Of each element 1 to e - 1 ones.
    assert_eq!(lengths.len(), 1 + 3 + 7 + 15 + 31 + 63);
}

/// The length behind the Rust's fields goes by its N and S and not by the value; where Arm has no
/// element for these, there is none.
#[test]
fn the_rust_has_the_length_of_its_own_fields() {
    let says = |numbers: &[u64]| Heard::Says(Answer::numbers(numbers));
    assert_eq!(Heard::fields(Some([0, 60, 0])), says(&[0, 60, 0, 2]));
    assert_eq!(Heard::fields(Some([1, 60, 0])), says(&[1, 60, 0, 64]));
    assert_eq!(Heard::fields(Some([0, 56, 0])), says(&[0, 56, 0, 4]));
    assert_eq!(Heard::fields(Some([0, 63, 0])), says(&[0, 63, 0]));
    assert_eq!(Heard::fields(Some([0, 62, 0])), says(&[0, 62, 0]));
    assert_eq!(Heard::fields(None), Heard::Says(Answer::no(3)));
}
