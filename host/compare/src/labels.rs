//! Labels bound late: scripts of binds, uses and finishes through the C entries beside the model, with the run, the table, the sheet and the
//! count compared after every call. The Rust has no labels.

use oracle::document::displacements::has_form;
use oracle::document::labels::{self as model, Book, Label, LABELS, USES};
use oracle::document::words;
use oracle::document::No;
use oracle::lists::random::Random;
use vaimalofo::{raw, Address, Place, Refusal, Use, WordPos};

use crate::parts::{around, number, own_base, random};
use crate::tally::Tally;
use crate::values;
use crate::work::Part;

type Bind = fn(&mut [usize], &[u32], Place, u32) -> Result<(), Refusal>;
type Add = fn(&mut [Use], usize, &[usize], &[u32], Place, u32, u32) -> Result<usize, Refusal>;
type Finish = fn(&[Use], usize, &[usize], &mut [u32], Address) -> Result<usize, Refusal>;

/// The three entries of a program that has labels.
#[derive(Clone, Copy)]
pub struct Entries {
    pub bind: Bind,
    pub add: Add,
    pub finish: Finish,
}

pub const C_ENTRIES: Entries =
    Entries { bind: raw::bind_label, add: raw::use_label, finish: raw::finish_labels };

/// Items lent between two guards.
struct Fenced<T> {
    all: Vec<T>,
    guard: T,
}

/// Items on each side that nothing may touch.
const GUARD: usize = 4;

impl<T: Copy + PartialEq> Fenced<T> {
    fn new(items: impl Iterator<Item = T>, guard: T) -> Self {
        let sides = || std::iter::repeat_n(guard, GUARD);
        Self { all: sides().chain(items).chain(sides()).collect(), guard }
    }

    fn lent(&mut self) -> &mut [T] {
        let end = self.all.len() - GUARD;
        &mut self.all[GUARD..end]
    }

    fn items(&self) -> &[T] {
        &self.all[GUARD..self.all.len() - GUARD]
    }

    fn kept(&self) -> bool {
        let (front, back) = (&self.all[..GUARD], &self.all[self.all.len() - GUARD..]);
        front.iter().chain(back).all(|item| *item == self.guard)
    }
}

/// What a program is lent, as the book of the model has it.
struct Lent {
    words: Fenced<u32>,
    labels: Fenced<usize>,
    uses: Fenced<Use>,
}

fn record(one: &model::Use) -> Use {
    Use { label: one.label, at: one.position as usize, format: one.format }
}

impl Lent {
    fn of(book: &Book) -> Self {
        let guard = Use { label: 0x3C3C_3C3C, at: 0x3C3C, format: 0x3C3C_3C3C };
        Self {
            words: Fenced::new(book.run.iter().copied(), 0x3C3C_3C3C),
            labels: Fenced::new(book.labels.iter().map(|label| label.entry() as usize), 0x3C3C),
            uses: Fenced::new(book.sheet.iter().map(record), guard),
        }
    }

    /// What is not as the book has it.
    fn differs(&self, book: &Book) -> Option<&'static str> {
        let entries = book.labels.iter().map(|label| label.entry() as usize);
        match () {
            () if !self.words.kept() => Some("a word beside the run has changed"),
            () if !self.labels.kept() => Some("an entry beside the table has changed"),
            () if !self.uses.kept() => Some("a record beside the sheet has changed"),
            () if self.words.items() != book.run => Some("the words differ"),
            () if !self.labels.items().iter().copied().eq(entries) => Some("the table differs"),
            () if !self.uses.items().iter().copied().eq(book.sheet.iter().map(record)) => {
                Some("the sheet differs")
            }
            () => None,
        }
    }
}

#[derive(Clone, Copy, Debug)]
enum Call {
    Bind { at: words::Place, label: u32 },
    Use { at: words::Place, label: u32, format: u32 },
    Finish { base: u64 },
}

impl Call {
    fn name(self) -> &'static str {
        match self {
            Self::Bind { .. } => "bind",
            Self::Use { .. } => "use",
            Self::Finish { .. } => "finish",
        }
    }

    /// The model's answer: the count after the call, 0 after a bind.
    fn of_model(self, book: &mut Book) -> Result<u64, No> {
        match self {
            Self::Bind { at, label } => book.bind(at, label).map(|()| 0),
            Self::Use { at, label, format } => book.use_label(at, label, format),
            Self::Finish { base } => book.finish(base),
        }
    }

    /// The program's.
    fn of_program(self, entries: &Entries, lent: &mut Lent, count: u64) -> Result<u64, No> {
        let Lent { words, labels, uses } = lent;
        let (words, labels, uses) = (words.lent(), labels.lent(), uses.lent());
        let count = count as usize;
        let place = |at: words::Place| Place {
            base: Address(at.base),
            position: WordPos(at.position as usize),
        };
        let answer = match self {
            Self::Bind { at, label } => (entries.bind)(labels, words, place(at), label).map(|()| 0),
            Self::Use { at, label, format } => {
                (entries.add)(uses, count, labels, words, place(at), label, format)
            }
            Self::Finish { base } => (entries.finish)(uses, count, labels, words, Address(base)),
        };
        answer.map(|value| value as u64).map_err(number)
    }
}

/// A script in play: the model's book, and what the program is lent, the same before every call.
struct Play<'a> {
    entries: &'a Entries,
    item: u64,
    book: Book,
    lent: Lent,
}

impl<'a> Play<'a> {
    fn new(entries: &'a Entries, item: u64, book: Book) -> Self {
        let lent = Lent::of(&book);
        Self { entries, item, book, lent }
    }

    /// A call of both; whether the model accepts it. Where they differ the program goes on from the model's state.
    fn call(&mut self, call: Call, tally: &mut Tally) -> bool {
        let count = self.book.count;
        let answer = call.of_program(self.entries, &mut self.lent, count);
        let document = call.of_model(&mut self.book);
        let refusal = document.map_or_else(|No(number)| number, |_| 0);
        tally.answers(call.name(), refusal);
        let state = self.lent.differs(&self.book);
        match (answer == document, state) {
            (true, None) => tally.alone += 1,
            _ => {
                let Self { item, book, .. } = self;
                let lengths = [book.run.len(), book.labels.len(), book.sheet.len()];
                tally.fails(|| {
                    format!("script {item}, {call:x?}, words, labels and uses {lengths:?}, count {count}: {answer:?}, document 02 {document:?}; {}", state.unwrap_or("the rest is equal"))
                });
                self.lent = Lent::of(&self.book);
            }
        }
        document.is_ok()
    }

    /// A change that the caller makes to its own memory.
    fn change(&mut self, change: impl FnOnce(&mut Book)) {
        change(&mut self.book);
        self.lent = Lent::of(&self.book);
    }

    /// A call at a count that may be anything; the count is then as before, if the call has not changed it.
    fn call_at(&mut self, count: u64, call: Call, tally: &mut Tally) {
        let before = self.book.count;
        self.book.count = count;
        if !self.call(call, tally) || self.book.count == count {
            self.book.count = before;
        }
    }
}

/// Random scripts. Every 16th is played in two orders, every 64th has a table and a sheet on both sides of their limits, every 256th a label
/// out of reach, and every 1,024th fills a sheet through its calls.
pub fn labels(count: u64, entries: Entries) -> Part {
    Part {
        name: "labels",
        what: format!("{count} scripts of binds, uses and finishes of labels, with wild counts, records, entries and lengths; run, table, sheet and count compared after every call"),
        items: count,
        check: Box::new(move |item, tally| script(&entries, item, tally)),
    }
}

/// Items whose run is so long that a label at its end is out of reach: of format 2; of 1, 3 and 5; and of 0.
const FAR: [(u64, usize); 3] = [(256, 8_192), (8_192, 262_144), (65_536, 33_554_432)];

fn script(entries: &Entries, item: u64, tally: &mut Tally) {
    let mut random = random(17, item);
    let r = &mut random;
    let far = FAR.iter().rev().find(|(every, _)| item % every == every - 1);
    match far {
        Some((_, words)) => far_script(entries, item, *words, r, tally),
        None => match item % 1024 {
            0 => filled_script(entries, item, r, tally),
            part if part % 16 == 1 => ordered_script(entries, item, r, tally),
            part if part % 64 == 2 => long_script(entries, item, r, tally),
            _ => short_script(entries, item, r, tally),
        },
    }
}

/// A base address: 0, any, near the end of a page, or near that of all addresses.
fn any_base(r: &mut Random) -> u64 {
    match r.below(4) {
        0 => 0,
        1 => values::high_base(r),
        2 => (r.below(1 << 40) << 12).wrapping_sub(4 * r.below(16)),
        _ => r.value() & !3,
    }
}

/// A base word of some format.
fn any_word(r: &mut Random) -> u32 {
    let format = r.below(6) as usize;
    own_base(format, r)
}

/// A book with nothing bound and nothing waiting, its sheet full of what means nothing yet.
fn book(words: usize, labels: usize, uses: usize, r: &mut Random) -> Book {
    let dirt = r.below(2) == 0;
    let mut record = || match dirt {
        true => wild_record(words, labels, r),
        false => model::Use::default(),
    };
    let sheet = (0..uses).map(|_| record()).collect();
    let run = (0..words).map(|_| any_word(r)).collect();
    Book { run, labels: vec![Label::Unbound; labels], sheet, count: 0 }
}

/// The format whose form the word at a position has; any where there is none.
fn own_format(book: &Book, position: u64, r: &mut Random) -> u32 {
    let word = usize::try_from(position).ok().and_then(|position| book.run.get(position));
    let format = word.and_then(|word| (0..6).find(|format| has_form(*format, *word) == Ok(true)));
    format.unwrap_or(r.below(6) as u32)
}

fn below(n: usize, r: &mut Random) -> u64 {
    r.below(n.max(1) as u64)
}

/// A label: mostly one that there is, else one around the table's length or the limit, or any.
fn any_label(labels: usize, wild: u64, r: &mut Random) -> u32 {
    if r.below(wild) > 0 {
        return below(labels.min(LABELS), r) as u32;
    }
    match r.below(4) {
        0 => (labels as u32).wrapping_sub(1).wrapping_add(r.below(3) as u32),
        1 => (LABELS - 1) as u32 + r.below(3) as u32,
        2 => u32::MAX - r.below(2) as u32,
        _ => r.value() as u32,
    }
}

/// A position: mostly one of a word, else around the end, or any.
fn any_position(words: usize, wild: u64, r: &mut Random) -> u64 {
    match (r.below(wild), r.below(4)) {
        (1.., _) => below(words, r),
        (0, 0) => around(r),
        (0, _) => words as u64 + r.below(3),
    }
}

fn any_format(own: u32, wild: u64, r: &mut Random) -> u32 {
    match (r.below(wild), r.below(4)) {
        (1.., _) => own,
        (0, 0) => r.value() as u32,
        (0, _) => r.below(8) as u32,
    }
}

fn wild_record(words: usize, labels: usize, r: &mut Random) -> model::Use {
    let position = any_position(words, 4, r);
    let own = r.below(6) as u32;
    model::Use { label: any_label(labels, 4, r), position, format: any_format(own, 4, r) }
}

/// A count: around what there is or may be, or any.
fn wild_count(uses: usize, r: &mut Random) -> u64 {
    match r.below(4) {
        0 => (uses as u64).wrapping_sub(1).wrapping_add(r.below(3)),
        1 => USES as u64 - 1 + r.below(3),
        2 => u64::MAX - r.below(2),
        _ => r.value() >> r.below(64),
    }
}

/// Any call, mostly a right one. One in `wild` of its numbers is not.
fn any_call(book: &Book, base: u64, wild: u64, r: &mut Random) -> Call {
    let base = match r.below(2 * wild) {
        0 => base.wrapping_add(1 + r.below(3)),
        1 => any_base(r),
        _ => base,
    };
    let label = any_label(book.labels.len(), wild, r);
    match r.below(16) {
        0..=4 => {
            // Up to the end itself.
            let at = words::Place { base, position: any_position(book.run.len() + 1, wild, r) };
            Call::Bind { at, label }
        }
        5..=12 => {
            let position = any_position(book.run.len(), wild, r);
            let format = any_format(own_format(book, position, r), wild, r);
            Call::Use { at: words::Place { base, position }, label, format }
        }
        _ => Call::Finish { base },
    }
}

/// What a caller may do to what is its own: a word, an entry, a record that waits or not, a shorter run.
fn meddle(play: &mut Play, r: &mut Random) {
    let (words, labels, uses) =
        (play.book.run.len(), play.book.labels.len(), play.book.sheet.len());
    let kind = r.below(8);
    play.change(|book| match kind {
        0..=2 if words > 0 => {
            let word = match r.below(4) {
                0 => r.value() as u32,
                1 => any_word(r) | r.value() as u32 & 0x60FF_FFE0,
                _ => any_word(r),
            };
            book.run[below(words, r) as usize] = word;
        }
        3..=4 if labels > 0 => {
            let entry = match r.below(8) {
                0 => u64::MAX - r.below(3),
                1 => r.value(),
                2 | 3 => words as u64 + r.below(4),
                4 | 5 => 0,
                _ => 1 + below(words, r),
            };
            book.labels[below(labels, r) as usize] = Label::of_entry(entry);
        }
        5..=6 if uses > 0 => {
            let at = below(uses.min(book.count as usize + 1), r) as usize;
            book.sheet[at] = match r.below(2) {
                0 => book.sheet[below(uses, r) as usize],
                _ => wild_record(words, labels, r),
            };
        }
        7 if r.below(2) == 0 => book.run.truncate(below(words + 1, r) as usize),
        _ => {}
    });
}

/// Random calls and changes, and at the end all labels bound and the finish.
fn calls(play: &mut Play, base: u64, count: u64, r: &mut Random, tally: &mut Tally) {
    // Half of the scripts are mostly right, so that many uses wait and are finished.
    let (wild, changes) = if r.below(2) == 0 { (12, 12) } else { (48, 64) };
    for _ in 0..count {
        if r.below(changes) == 0 {
            meddle(play, r);
        }
        let call = any_call(&play.book, base, wild, r);
        match r.below(2 * wild) {
            0 => play.call_at(wild_count(play.book.sheet.len(), r), call, tally),
            _ => {
                play.call(call, tally);
            }
        }
    }
    let words = play.book.run.len();
    for label in 0..play.book.labels.len().min(8) {
        let at = words::Place { base, position: below(words + 1, r) };
        play.call(Call::Bind { at, label: label as u32 }, tally);
    }
    play.call(Call::Finish { base }, tally);
}

/// Up to 24 words, a few labels, a few uses.
fn short_script(entries: &Entries, item: u64, r: &mut Random, tally: &mut Tally) {
    let (words, labels, uses) = (r.below(25), 1 + r.below(6), r.below(13));
    let labels = if r.below(16) == 0 { 0 } else { labels };
    let book = book(words as usize, labels as usize, uses as usize, r);
    let (base, count) = (any_base(r), 8 + r.below(32));
    calls(&mut Play::new(entries, item, book), base, count, r, tally);
}

/// A table and a sheet on both sides of their limits, the sheet all but full of uses that the caller has put there.
fn long_script(entries: &Entries, item: u64, r: &mut Random, tally: &mut Tally) {
    let uses = r.one_of(&[0, 1, 1023, 1024, 1025, 1100]);
    let labels = r.one_of(&[255, 256, 257, 300]);
    let words = 1024 + r.below(200) as usize;
    let mut book = book(words, labels, uses, r);
    let room = uses.min(USES);
    let there = room - below(room.min(3) + 1, r) as usize;
    for position in 0..there {
        let format = own_format(&book, position as u64, r);
        let label = r.below(LABELS.min(labels) as u64) as u32;
        book.sheet[position] = model::Use { label, position: position as u64, format };
    }
    book.count = there as u64;
    if r.below(2) == 0 {
        book.labels = (0..labels).map(|_| Label::Bound(r.below(words as u64 + 1))).collect();
    }
    let (base, count) = (any_base(r), 4 + r.below(12));
    calls(&mut Play::new(entries, item, book), base, count, r, tally);
}

/// A sheet filled through its calls, to its end or to the limit, and one use more; refused for the one label that is not bound, and then
/// finished; its room is used again, and every call is asked at the counts around the end.
fn filled_script(entries: &Entries, item: u64, r: &mut Random, tally: &mut Tally) {
    let uses = [1024, 1023, 1025, 1, 0][item as usize / 1024 % 5];
    let labels = r.one_of(&[256, 257, 300]);
    let words = USES + 2 + r.below(64) as usize;
    let base = any_base(r);
    let mut play = Play::new(entries, item, book(words, labels, uses, r));
    let last = r.below(LABELS as u64) as u32;
    for position in 0..USES as u64 + 1 {
        let label = if position == 0 { last } else { r.below(LABELS as u64) as u32 };
        let format = own_format(&play.book, position, r);
        let at = words::Place { base, position };
        play.call(Call::Use { at, label, format }, tally);
    }
    for label in (0..=LABELS as u32).filter(|label| *label != last) {
        let at = words::Place { base, position: r.below(words as u64 + 1) };
        play.call(Call::Bind { at, label }, tally);
    }
    play.call(Call::Finish { base }, tally);
    let at = words::Place { base, position: words as u64 };
    play.call(Call::Bind { at, label: last }, tally);
    play.call(Call::Finish { base }, tally);
    for position in USES as u64..words as u64 {
        let format = own_format(&play.book, position, r);
        let at = words::Place { base, position };
        play.call(Call::Use { at, label: last, format }, tally);
    }
    play.call(Call::Finish { base }, tally);
    for count in [uses as u64, uses as u64 + 1, 1024, 1025, u64::MAX] {
        let call = any_call(&play.book, base, 64, r);
        play.call_at(count, call, tally);
        play.call_at(count, Call::Finish { base }, tally);
    }
}

/// Binds and uses that are all right, in two orders, and the finish: every call is accepted, and the words are the same.
fn ordered_script(entries: &Entries, item: u64, r: &mut Random, tally: &mut Tally) {
    let (words, labels) = (1 + r.below(24) as usize, 1 + r.below(6) as usize);
    let book = book(words, labels, words, r);
    let base = any_base(r);
    let mut all: Vec<Call> = Vec::new();
    for label in 0..labels as u32 {
        let at = words::Place { base, position: r.below(words as u64 + 1) };
        all.push(Call::Bind { at, label });
    }
    for position in 0..words as u64 {
        let (label, format) = (r.below(labels as u64) as u32, own_format(&book, position, r));
        all.push(Call::Use { at: words::Place { base, position }, label, format });
    }
    let mut orders = [0, 1].map(|_| {
        shuffle(&mut all, r);
        let mut play = Play::new(entries, item, book.clone());
        let right = all.iter().all(|call| play.call(*call, tally));
        (right && play.call(Call::Finish { base }, tally), play.lent)
    });
    let [(first, one), (second, other)] = &mut orders;
    if !*first || !*second || one.words.items() != other.words.items() {
        tally.fails(|| format!("script {item}: two orders of {all:x?} give different words"));
    }
}

fn shuffle(all: &mut [Call], r: &mut Random) {
    for i in (1..all.len()).rev() {
        all.swap(i, r.below(i as u64 + 1) as usize);
    }
}

/// A long run of one word, whose label at its end some uses do not reach: the distances around the greatest one of each format, forward
/// and backward.
fn far_script(entries: &Entries, item: u64, reach: usize, r: &mut Random, tally: &mut Tally) {
    let format = match reach {
        8_192 => 2,
        33_554_432 => 0,
        _ => r.one_of(&[1, 3, 5]),
    };
    let base = any_base(r);
    let words = reach + 3;
    let mut book = book(0, 2, 8, r);
    book.run = vec![0; words];
    let ends = [0, 1, 2, 3, reach - 1, reach, reach + 1, reach + 2];
    ends.iter().for_each(|at| book.run[*at] = own_base(format, r));
    book.labels = vec![Label::Bound(r.below(4)), Label::Bound(words as u64 - r.below(4))];
    let mut play = Play::new(entries, item, book);
    for at in ends {
        let label = u32::from(at < 4);
        let at = words::Place { base, position: at as u64 };
        play.call(Call::Use { at, label, format: format as u32 }, tally);
        if !play.call(Call::Finish { base }, tally) {
            play.book.count = 0;
        }
    }
}

#[cfg(test)]
mod tests {
    use super::*;
    use crate::plain_labels as plain;

    const PLAIN: Entries =
        Entries { bind: plain::bind, add: plain::use_label, finish: plain::finish };

    /// How many calls fail, and which are seen, of the scripts that the short comparison has.
    fn failed(entries: Entries) -> Tally {
        let mut tally = Tally::default();
        let part = labels(2_100, entries);
        (0..part.items).for_each(|item| (part.check)(item, &mut tally));
        tally
    }

    /// A right program passes, and the scripts come to every refusal that there is: 4 there is none, since words stand on the step.
    #[test]
    fn a_right_program() {
        let tally = failed(PLAIN);
        assert_eq!((tally.failed, &tally.failures), (0, &vec![]));
        let mut seen = tally.answers.clone();
        for (call, numbers) in [
            ("bind", vec![0, 8, 12, 13, 15]),
            ("use", vec![0, 6, 7, 8, 11, 12, 14, 15, 16]),
            ("finish", vec![0, 5, 6, 7, 8, 11, 12, 14, 15, 16]),
        ] {
            for number in numbers {
                assert!(seen.remove(&(call, number)) > Some(0), "{call} {number}");
            }
        }
        assert!(seen.is_empty(), "{seen:?}");
    }

    #[test]
    fn the_end_is_no_place() {
        let bind: Bind = |labels, words, at, n| match plain::bind(labels, words, at, n) {
            Ok(()) if at.position.0 == words.len() => {
                labels[n as usize] = 0;
                Err(Refusal::NoRoom)
            }
            said => said,
        };
        assert!(failed(Entries { bind, ..PLAIN }).failed > 0);
    }

    #[test]
    fn one_label_more() {
        let bind: Bind = |labels, words, at, n| match plain::bind(labels, words, at, n) {
            Err(Refusal::Label) if n == 256 && labels.len() > 256 => {
                plain::bind(&mut labels[1..], words, at, 255)
            }
            said => said,
        };
        assert!(failed(Entries { bind, ..PLAIN }).failed > 0);
    }

    /// 16 left out where a use is recorded.
    #[test]
    fn a_word_twice() {
        let add: Add = |uses, count, labels, words, at, label, format| match plain::use_label(
            uses, count, labels, words, at, label, format,
        ) {
            Err(Refusal::Again) if count < uses.len().min(1024) => {
                uses[count] = Use { label, at: at.position.0, format };
                Ok(count + 1)
            }
            said => said,
        };
        assert!(failed(Entries { add, ..PLAIN }).failed > 0);
    }

    /// 14 before 16.
    #[test]
    fn full_first() {
        let add: Add = |uses, count, labels, words, at, label, format| match plain::use_label(
            uses, count, labels, words, at, label, format,
        ) {
            Err(Refusal::Again) if count >= uses.len().min(1024) => Err(Refusal::Full),
            said => said,
        };
        assert!(failed(Entries { add, ..PLAIN }).failed > 0);
    }

    /// The sheet's own length alone counts.
    #[test]
    fn one_use_more() {
        let add: Add = |uses, count, labels, words, at, label, format| match plain::use_label(
            uses, count, labels, words, at, label, format,
        ) {
            Err(Refusal::Full) if count < uses.len() => {
                uses[count] = Use { label, at: at.position.0, format };
                Ok(count + 1)
            }
            said => said,
        };
        assert!(failed(Entries { add, ..PLAIN }).failed > 0);
    }

    /// 16 left out where uses are finished.
    #[test]
    fn finished_twice() {
        let finish: Finish = |uses, count, labels, words, base| match plain::finish(
            uses, count, labels, words, base,
        ) {
            Err(Refusal::Again) => Ok(0),
            said => said,
        };
        assert!(failed(Entries { finish, ..PLAIN }).failed > 0);
    }

    /// The uses before the one that is refused are written.
    #[test]
    fn finished_in_part() {
        let finish: Finish = |uses, count, labels, words, base| {
            plain::finish(uses, count, labels, words, base).inspect_err(|_| {
                plain::finish(&uses[..1.min(uses.len())], 1, labels, words, base).ok();
            })
        };
        assert!(failed(Entries { finish, ..PLAIN }).failed > 0);
    }

    /// Addresses from 0 on, whatever the base: an ADRP shows it.
    #[test]
    fn no_base() {
        let finish: Finish = |uses, count, labels, words, base| {
            plain::finish(uses, count, labels, words, Address(base.0 & 3))
        };
        assert!(failed(Entries { finish, ..PLAIN }).failed > 0);
    }
}
