//! Words that stand in a run, sent to another distance or target.

use oracle::document::displacements::{self, distance, low_12, FORMATS};
use oracle::document::words::Place;
use oracle::lists::random::Random;
use oracle::replay::answer::{Answer, Said};
use oracle::replay::request::{entry::DISP_IMM, Request};
use oracle::replay::{settle, Settled};
use vaimalofo::raw;

use crate::calls::{lent, lent_to};
use crate::parts::{
    around, distance_of, distances, ends, near, one_in_two, own_base, random, target, Slice,
};
use crate::tally::Tally;
use crate::values;
use crate::work::Part;

/// A base with any bits in the field of its format.
pub fn any_field(format: usize, base: u32, random: &mut Random) -> u32 {
    base | random.value() as u32 & !FORMATS[format].cleared(u32::MAX)
}

/// A run, a place in it, and the format at which the word there is sent elsewhere.
struct Standing {
    words: Vec<u32>,
    tail: usize,
    at: Place,
    format: u32,
}

#[derive(Clone, Copy, Debug)]
enum By {
    Distance(i64),
    Target(u64),
}

impl Standing {
    /// Document 01's answer and run.
    fn document(&self, by: By) -> Answer {
        let mut run = self.words.clone();
        let (said, low) = match by {
            By::Distance(by) => (displacements::retarget(&mut run, self.at, self.format, by), None),
            By::Target(to) => (
                displacements::retarget_to(&mut run, self.at, self.format, to),
                low_12(self.format, to),
            ),
        };
        Answer::wrote(said, run).carrying(low)
    }

    /// The C entry's.
    fn asked(&self, by: By) -> Result<Answer, String> {
        let Self { words, tail, at, format } = self;
        match by {
            By::Distance(by) => {
                lent(words, *tail, *at, |run, at| raw::retarget(run, at, *format, by))
            }
            By::Target(to) => {
                lent_to(words, *tail, *at, |run, at| raw::retarget_to(run, at, *format, to))
            }
        }
    }

    /// The Rust sends no word elsewhere: where one of the format stands, it is asked for the distance in that word with its field clear.
    fn beside(&self, by: By) -> Result<Settled, String> {
        let distance = match by {
            By::Distance(by) => by,
            By::Target(to) => distance(self.format, to, self.at.address()),
        };
        let word = FORMATS[self.format as usize].cleared(self.words[self.at.position as usize]);
        settle(&Request::new(DISP_IMM, &[self.format.into(), word.into(), distance as u64, 1, 0]))
    }

    fn check(&self, by: By, tally: &mut Tally) {
        let document = self.document(by);
        let failed = |why: String| {
            format!(
                "format {} {by:x?} at {:x?} in {:x?}, tail {}: {why}, document 01 {document:x?}",
                self.format, self.at, self.words, self.tail
            )
        };
        match self.asked(by) {
            Ok(answer) if answer == document => {}
            other => return tally.fails(|| failed(format!("{other:x?}"))),
        }
        if matches!(document.said, Said::No(7 | 8 | 11 | 15)) {
            tally.alone += 1;
            return;
        }
        match self.beside(by) {
            Ok(Settled::Same(new)) if self.alike(&document, &new) => tally.same += 1,
            Ok(Settled::Differs(class, new)) if self.alike(&document, &new) => tally.differs(class),
            Ok(_) => tally.fails(|| failed("not the word with its field clear".to_string())),
            Err(why) => tally.fails(|| why),
        }
    }

    /// Whether a word sent elsewhere is the word that is written anew, or both are refused alike.
    fn alike(&self, sent: &Answer, new: &Answer) -> bool {
        match &sent.said {
            Said::Numbers(_) => new.run.first() == sent.run.get(self.at.position as usize),
            refused => new.said == *refused,
        }
    }

    /// Sent away and back by the distance that it had, the word is as it was.
    fn check_back(&self, by: i64, tally: &mut Tally) {
        let away = self.document(By::Distance(by));
        if !away.is_ok() {
            return;
        }
        let old = raw::read_displacement(self.words[self.at.position as usize], self.format);
        let sent = Self { words: away.run, ..*self };
        let back = old.map(|old| sent.asked(By::Distance(old)));
        match &back {
            Ok(Ok(answer)) if answer.is_ok() && answer.run == self.words => tally.alone += 1,
            _ => tally.fails(|| format!("{:x?} by {by:x} and back: {back:x?}", self.words)),
        }
    }
}

/// Words sent to distances and targets.
pub fn retargets(slice: Slice) -> Part {
    let (all, ends) = (distances(), ends());
    let first = ends.len() as u64;
    Part {
        name: "retargets",
        what: format!(
            "words sent to {} the {all} distances of displacements, by distance, by target and back; now and then of another form, off the end, at an unknown format or at an odd base address",
            slice.text()
        ),
        items: first + slice.count(all),
        check: Box::new(move |i, tally| {
            let mut random = random(16, i);
            let (format, distance) = match ends.get(i as usize) {
                Some(end) => *end,
                None => distance_of(slice.item(i - first)),
            };
            let standing = standing(format, &mut random);
            let by = match random.below(16) {
                0 => {
                    let value = values::mixed(&mut random, i);
                    near(value, &mut random) as i64
                }
                _ => distance,
            };
            standing.check(By::Distance(by), tally);
            let to = target(format, by, standing.at, &mut random);
            standing.check(By::Target(to), tally);
            standing.check_back(by, tally);
        }),
    }
}

/// A word of the format in a run of any others; now and then something is wrong with it.
fn standing(format: usize, r: &mut Random) -> Standing {
    let words = (0..1 + r.below(8)).map(|_| r.value() as u32).collect();
    let base = match r.below(4) {
        0 => 0,
        1 => values::high_base(r),
        _ => r.value() >> r.one_of(&[0, 32, 44]) & !3,
    };
    let mut all = Standing {
        words,
        tail: r.below(4) as usize,
        at: Place { base, position: 0 },
        format: format as u32,
    };
    let position = r.below(all.words.len() as u64);
    all.at.position = position;
    all.words[position as usize] = standing_word(format, r);
    if r.below(16) == 0 {
        all.at.position = r.one_of(&[0, 1, 2]) + all.words.len() as u64;
    }
    if r.below(32) == 0 {
        all.at.position = around(r);
    }
    if r.below(16) == 0 {
        all.at.base = base + 1 + r.below(3);
    }
    if r.below(16) == 0 {
        all.format = one_in_two(r, &[6, 7, 8]) as u32;
    }
    all
}

/// A word of the format with anything in its field and, of TBZ and TBNZ, with any bit named; now and then of another format, or any word.
fn standing_word(format: usize, r: &mut Random) -> u32 {
    let format = match r.below(16) {
        0 => return r.value() as u32,
        1 => r.below(6) as usize,
        _ => format,
    };
    let word = any_field(format, own_base(format, r), r);
    match format {
        2 => word | (r.below(32) as u32) << 19,
        _ => word,
    }
}
