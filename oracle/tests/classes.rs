//! The classes of difference: what they say that the Rust does is what it does, and what it does not
//! do has no class.

use std::collections::BTreeSet;
use std::ops::BitXorAssign;

use oracle::document::logical::masks;
use oracle::lists::LISTS;
use oracle::replay::answer::{Answer, Said};
use oracle::replay::by_document;
use oracle::replay::by_rust::{self, Heard};
use oracle::replay::classes::{Class, class};
use oracle::replay::departures;
use oracle::replay::request::{Request, entry::*};

/// How many classes there are.
const CLASSES: usize = 22;

fn all_requests() -> impl Iterator<Item = Request> {
    LISTS.iter().flat_map(|list| (list.requests)())
}

/// Numbers with one of the low 32 bits of one of them flipped.
fn flipped<T: Copy + BitXorAssign + From<u32>>(numbers: &[T]) -> Vec<Vec<T>> {
    let bits = (0..32).flat_map(|bit| (0..numbers.len()).map(move |i| (i, bit)));
    bits.map(|(i, bit)| {
        let mut numbers = numbers.to_vec();
        numbers[i] ^= T::from(1 << bit);
        numbers
    })
    .collect()
}

/// Answers that are not the given one: another number or position, another refusal, one bit of the
/// run flipped, a word of it missing or too many.
fn other_answers(answer: &Answer) -> Vec<Answer> {
    let Answer { said, run } = answer;
    let saids: Vec<Said> = match said {
        Said::Numbers(numbers) => flipped(numbers).into_iter().map(Said::Numbers).collect(),
        Said::Wide(value) => (0..64).map(|bit| Said::Wide(value ^ 1 << bit)).collect(),
        Said::No(number) => vec![Said::No(number + 1), Said::Numbers(vec![0])],
    };
    let mut runs = flipped(run);
    runs.push([&run[..], &[0]].concat());
    runs.extend(run.split_last().map(|(_, rest)| rest.to_vec()));
    let saids = saids.into_iter().map(|said| Answer { said, run: run.clone() });
    saids.chain(runs.into_iter().map(|run| Answer { said: said.clone(), run })).collect()
}

/// What the Rust might have done instead.
fn others(rust: &Heard, document: &Answer) -> Vec<Heard> {
    let mut others = vec![Heard::Says(document.clone()), Heard::Panics, Heard::Lacks];
    others.retain(|other| other != rust);
    match rust {
        Heard::Says(answer) => others.extend(other_answers(answer).into_iter().map(Heard::Says)),
        Heard::Spoils(number, outputs) => {
            others.push(Heard::Spoils(number + 1, outputs.clone()));
            others.extend(flipped(outputs).into_iter().map(|out| Heard::Spoils(*number, out)));
        }
        Heard::Overflows(Some(answer)) => {
            others.push(Heard::Overflows(None));
            let answers = other_answers(answer).into_iter();
            others.extend(answers.map(|answer| Heard::Overflows(Some(answer))));
        }
        Heard::Overflows(None) => others.push(Heard::Overflows(Some(document.clone()))),
        Heard::Panics | Heard::Lacks => {}
    }
    others
}

/// Each class is met, and no answer but the Rust's is taken for it.
#[test]
fn another_answer_has_no_class() {
    let mut met: BTreeSet<Class> = BTreeSet::new();
    for r in all_requests() {
        let (document, rust) = (by_document::answer(&r), by_rust::heard(&r));
        if rust == Heard::Says(document.clone()) {
            continue;
        }
        met.extend(class(&r, &document, &rust));
        for other in others(&rust, &document) {
            assert_eq!(class(&r, &document, &other), None, "{r}: {other:x?}");
        }
    }
    assert_eq!(met.len(), CLASSES);
}

/// A refusal of document 01 with another number has no class either.
#[test]
fn another_refusal_has_no_class() {
    for r in all_requests() {
        let (document, rust) = (by_document::answer(&r), by_rust::heard(&r));
        if let (Said::No(number), false) = (&document.said, rust == Heard::Lacks) {
            let said = Said::No(number + 20);
            let other = Answer { said, run: document.run.clone() };
            assert_eq!(class(&r, &other, &rust), None, "{r}: {other:x?}");
        }
    }
}

/// The rules of the classes hold of every request, also where the Rust answers as document 01.
#[test]
fn the_rust_does_what_the_classes_say() {
    for r in all_requests() {
        assert_eq!(departures::expected(&r), by_rust::heard(&r), "{r}");
    }
}

/// So it does at every width to 400, for the masks of both widths.
#[test]
fn logical_fields_at_other_widths() {
    for (value, _) in masks(32).iter().chain(masks(64)) {
        for width in (0..400).chain([1 << 31, u64::from(u32::MAX)]) {
            let r = Request::new(ENCODE_LOGICAL, &[*value, width]);
            assert_eq!(departures::expected(&r), by_rust::heard(&r), "{r}");
        }
    }
}
