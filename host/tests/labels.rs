//! The entries for labels: every refusal in its order, what changes and what stays, and the words beside those of `displacement_to`.
//! Calls are asked on bare numbers; where these have types, the typed function is asked as well and must do the same.

use std::fmt::Debug;

use vaimalofo::{
    bytes, displacement_to, mov, raw, words, Address, ByteDistance, Error, Format, Label, Labels,
    Place, Refusal, Reg, Unfinished, Use, Uses, WordPos,
};

const CBZ_X3: u32 = 0xB4000003;
const TBZ_X3: u32 = 0x36000003;
const B: u32 = 0x14000000;
const BRANCH_26: u32 = Format::Branch26.number();
const BRANCH_19: u32 = Format::Branch19.number();
const BRANCH_14: u32 = Format::Branch14.number();

/// The greatest address that a word has.
const LAST: u64 = 0xFFFF_FFFF_FFFF_FFFC;

/// How many labels there are at most, and how many uses wait at most.
const LABELS: usize = 256;
const USES: usize = 1024;

const fn place(base: u64, position: usize) -> Place {
    Place { base: Address(base), position: WordPos(position) }
}

const fn at(position: usize) -> Place {
    place(0x1000, position)
}

const fn a_use(label: u32, at: usize, format: u32) -> Use {
    Use { label, at, format }
}

/// What is lent: a table, a sheet with the count of uses that wait, and a run.
#[derive(Clone, Debug, PartialEq)]
struct Lent {
    labels: Vec<usize>,
    uses: Vec<Use>,
    count: usize,
    words: Vec<u32>,
}

impl Lent {
    /// Labels that are unbound, records that mean nothing, and a run of one word.
    fn new(labels: usize, uses: usize, words: usize, word: u32) -> Lent {
        let record = a_use(u32::MAX, usize::MAX, u32::MAX);
        Lent {
            labels: vec![0; labels],
            uses: vec![record; uses],
            count: 0,
            words: vec![word; words],
        }
    }

    /// Asks a call on bare numbers, and the typed one of a copy, where there is one. They do the same, and nothing where it is refused.
    fn ask<T: Copy + Debug + PartialEq>(
        &mut self,
        bare: impl Fn(&mut Lent) -> Result<T, Refusal>,
        typed: impl Fn(&mut Lent) -> Option<Result<T, Error>>,
    ) -> Result<T, Refusal> {
        let (before, mut again) = (self.clone(), self.clone());
        let answer = bare(self);
        if let Some(typed) = typed(&mut again) {
            assert_eq!(typed.map_err(|error| error.refusal()), answer);
            assert_eq!(again, *self);
        }
        if answer.is_err() {
            assert_eq!(*self, before);
        }
        answer
    }

    fn bind(&mut self, at: Place, label: u32) -> Result<(), Refusal> {
        self.ask(
            |lent| raw::bind_label(&mut lent.labels, &lent.words, at, label),
            |lent| Some(Labels::resume(&mut lent.labels).bind(&lent.words, Label(label), at)),
        )
    }

    fn add(&mut self, at: Place, label: u32, format: u32) -> Result<usize, Refusal> {
        self.ask(
            |Lent { labels, uses, count, words }| {
                *count = raw::use_label(uses, *count, labels, words, at, label, format)?;
                Ok(*count)
            },
            |Lent { labels, uses, count, words }| {
                let mut sheet = Uses::resume(uses, *count).ok()?;
                let format = Format::from_number(format)?;
                let answer = sheet.add(&Labels::resume(labels), words, Label(label), at, format);
                *count = sheet.len();
                Some(answer)
            },
        )
    }

    fn finish(&mut self, base: u64) -> Result<usize, Refusal> {
        self.ask(
            |Lent { labels, uses, count, words }| {
                *count = raw::finish_labels(uses, *count, labels, words, Address(base))?;
                Ok(*count)
            },
            |Lent { labels, uses, count, words }| {
                let mut sheet = Uses::resume(uses, *count).ok()?;
                let answer = sheet.finish(&Labels::resume(labels), words, Address(base));
                *count = sheet.len();
                Some(answer.map(|()| 0).map_err(Error::from))
            },
        )
    }

    /// The typed error of a finish.
    fn unfinished(&mut self, base: u64) -> Unfinished {
        let mut sheet = Uses::resume(&mut self.uses, self.count).unwrap();
        sheet.finish(&Labels::resume(&mut self.labels), &mut self.words, Address(base)).unwrap_err()
    }
}

/// Calls with each set of the things that can be wrong: the refusal is the first of these in the order.
fn in_order<T: Copy + Debug + PartialEq, const N: usize>(
    order: [Refusal; N],
    right: T,
    call: impl Fn([bool; N]) -> Result<T, Refusal>,
) {
    for set in 0..1_u32 << N {
        let wrong = std::array::from_fn(|i| set >> i & 1 == 1);
        let first = order.into_iter().zip(wrong).find(|(_, wrong)| *wrong);
        let expected = first.map_or(Ok(right), |(refusal, _)| Err(refusal));
        assert_eq!(call(wrong), expected, "{wrong:?} of {order:?}");
    }
}

#[test]
fn binding_is_refused_in_order() {
    let order = [Refusal::Unaligned, Refusal::Label, Refusal::Twice, Refusal::NoRoom];
    for off in 1..4 {
        in_order(order, (), |[unaligned, no_label, twice, past]| {
            let mut lent = Lent::new(4, 0, 8, 0);
            lent.labels = vec![0, 0, 0, if twice { 1 + 5 } else { 0 }];
            let base = if unaligned { 0x1000 + off } else { 0x1000 };
            let position = if past { 9 } else { 8 };
            lent.bind(place(base, position), if no_label { 4 } else { 3 })
        });
    }
}

/// Tables from none to more than there may be labels, each with its last label and the first that is none's.
#[test]
fn a_label_is_below_the_limit_and_in_the_table() {
    for length in (0..10).chain([254, 255, 256, 257, 300, 4096]) {
        let there = length.min(LABELS);
        for label in (0..there).filter(|label| label % 50 == 0 || label + 1 == there) {
            for position in 0..4 {
                let mut lent = Lent::new(length, 0, 3, 0);
                assert_eq!(lent.bind(at(position), label as u32), Ok(()));
                let mut after = vec![0; length];
                after[label] = position + 1;
                assert_eq!(lent.labels, after);
                let label = Label(label as u32);
                assert_eq!(
                    Labels::resume(&mut lent.labels).position(label),
                    Some(WordPos(position))
                );
                assert_eq!(lent.bind(at(position), label.0), Err(Refusal::Twice));
                lent.words.clear();
                assert_eq!(Labels::new(&mut lent.labels).position(label), None);
                assert_eq!(lent.bind(at(1), label.0), Err(Refusal::NoRoom));
            }
        }
        for label in [there as u32, there as u32 + 1, 256, 257, 1 << 16, 1 << 31, u32::MAX] {
            let mut lent = Lent::new(length, 4, 3, B);
            assert_eq!(lent.bind(at(0), label), Err(Refusal::Label));
            assert_eq!(lent.add(at(0), label, BRANCH_26), Err(Refusal::Label));
            assert_eq!(Labels::resume(&mut lent.labels).position(Label(label)), None);
            (lent.uses[0], lent.count) = (a_use(label, 0, BRANCH_26), 1);
            assert_eq!(lent.finish(0), Err(Refusal::Label));
        }
    }
    assert_eq!((Labels::LIMIT, Uses::LIMIT), (LABELS, USES));
}

#[test]
fn positions_as_great_as_numbers_are() {
    for position in [9, usize::MAX / 4, usize::MAX / 2, usize::MAX - 1, usize::MAX] {
        let mut lent = Lent::new(4, 4, 8, B);
        assert_eq!(lent.bind(at(position), 3), Err(Refusal::NoRoom));
        assert_eq!(lent.add(at(position), 3, BRANCH_26), Err(Refusal::NoRoom));
        (lent.uses[0], lent.count) = (a_use(3, position, BRANCH_26), 1);
        lent.labels[3] = 1;
        assert_eq!(lent.finish(0), Err(Refusal::NoRoom));
        // The label of such a position.
        lent.uses[0] = a_use(3, 0, BRANCH_26);
        lent.labels[3] = position.saturating_add(1);
        assert_eq!(lent.finish(0), Err(Refusal::NoRoom));
    }
}

/// A word for a use: of no instruction of its format, with bits in its field, or right.
fn base_word(wrong_form: bool, taken: bool, right: u32) -> u32 {
    match (wrong_form, taken) {
        (true, true) => u32::MAX,
        (true, false) => B,
        (false, true) => right + 0x20,
        (false, false) => right,
    }
}

#[test]
fn a_use_is_refused_in_order() {
    use Refusal::{Again, Full, Label, NoRoom, Taken, Unaligned, Unknown, WrongForm};
    let order = [Unaligned, Unknown, Label, NoRoom, WrongForm, Taken, Again, Full];
    for bound in [0, 1, 1 + 9] {
        in_order(order, 3, |wrong| {
            let [unaligned, unknown, no_label, past, wrong_form, taken, again, full] = wrong;
            let mut lent = Lent::new(4, if full { 2 } else { 3 }, 8, 0);
            lent.labels[3] = bound;
            let position = if past { 8 } else { 5 };
            lent.words[5] = base_word(wrong_form, taken, CBZ_X3);
            lent.count = 2;
            lent.uses[0] = a_use(0, if again { position } else { 4 }, BRANCH_26);
            lent.uses[1] = a_use(9, 3, 9);
            let base = if unaligned { 0x1002 } else { 0x1000 };
            let (label, format) =
                (if no_label { 4 } else { 3 }, if unknown { 6 } else { BRANCH_19 });
            let before = lent.clone();
            let answer = lent.add(place(base, position), label, format);
            if answer.is_ok() {
                let mut after = before.clone();
                (after.uses[2], after.count) = (a_use(3, 5, BRANCH_19), 3);
                assert_eq!(lent, after);
            }
            answer
        });
    }
}

/// A use behind one that passes, with each set of what can be wrong with it and with the call. Label or word may be the one that 12 or 8 is
/// about. A label's distance is a multiple of 4, so that 4 is never given.
#[test]
fn finishing_is_refused_in_order() {
    use Refusal::{Full, Label, NoRoom, Range, Taken, Unaligned, Unknown, WrongForm};
    let order = [Unaligned, Full, Unknown, Label, NoRoom, WrongForm, Taken, Range];
    for [unbound, label_past] in [[false, false], [false, true], [true, false], [true, true]] {
        in_order(order, 0, |[unaligned, full, unknown, label, past, form, taken, far]| {
            let mut lent = Lent::new(4, 2, 9000, 0);
            let end = if label_past && past { 9001 } else { 9000 };
            lent.labels = vec![1, 0, 0, 1 + if far || end == 9001 { end } else { 6 }];
            (lent.words[4], lent.words[5]) = (CBZ_X3, base_word(form, taken, TBZ_X3));
            lent.uses[0] = a_use(0, 4, BRANCH_19);
            lent.uses[1] = Use {
                label: if !label {
                    3
                } else if unbound {
                    2
                } else {
                    4
                },
                at: if past && !label_past { 9000 } else { 5 },
                format: if unknown { 6 } else { BRANCH_14 },
            };
            lent.count = if full { 3 } else { 2 };
            lent.finish(if unaligned { 0x1001 } else { 0x1000 })
        });
    }
}

/// The same of two uses of one word: the first passes, so that the word is in the run and is a base of its format, not of the other's.
#[test]
fn finishing_two_uses_of_a_word_is_refused_in_order() {
    use Refusal::{Again, Full, Label, NoRoom, Range, Unaligned, Unknown, WrongForm};
    let order = [Unaligned, Full, Unknown, Label, NoRoom, WrongForm, Again, Range];
    in_order(order, 0, |[unaligned, full, unknown, label, past, form, again, far]| {
        let mut lent = Lent::new(4, 3, 9000, TBZ_X3);
        let position = if past { 9001 } else { 9000 };
        lent.labels = vec![1, 0, 0, 1 + if far || past { position } else { 6 }];
        lent.uses[0] = a_use(0, 4, BRANCH_14);
        lent.uses[1] = a_use(0, if again { 5 } else { 6 }, BRANCH_14);
        let format = if form { BRANCH_19 } else { BRANCH_14 };
        lent.uses[2] = a_use(if label { 1 } else { 3 }, 5, if unknown { u32::MAX } else { format });
        lent.count = if full { 4 } else { 3 };
        lent.finish(if unaligned { 0x1003 } else { 0x1000 })
    });
}

/// The first use of the sheet that is refused decides, whatever comes behind it; the error has its index.
#[test]
fn the_first_refused_use_is_named() {
    let wrong = [
        (a_use(0, 6, 6), Refusal::Unknown),
        (a_use(4, 6, BRANCH_14), Refusal::Label),
        (a_use(1, 6, BRANCH_14), Refusal::Label),
        (a_use(0, 9000, BRANCH_14), Refusal::NoRoom),
        (a_use(2, 6, BRANCH_14), Refusal::NoRoom),
        (a_use(0, 6, BRANCH_19), Refusal::WrongForm),
        (a_use(0, 7, BRANCH_14), Refusal::Taken),
        (a_use(0, 8, BRANCH_14), Refusal::Again),
        (a_use(3, 6, BRANCH_14), Refusal::Range),
    ];
    for (first, refusal) in wrong {
        for (second, _) in wrong {
            for index in 1..4 {
                let mut lent = Lent::new(4, 9, 9000, TBZ_X3);
                lent.labels = vec![1, 0, 1 + 9001, 1 + 9000];
                lent.words[7] = TBZ_X3 + 0x20;
                let right = [8, 9, 10].map(|at| a_use(0, at, BRANCH_14));
                lent.uses = [&right[..index], &[first, second, second]].concat();
                lent.count = lent.uses.len();
                assert_eq!(lent.finish(0), Err(refusal));
                let error = lent.unfinished(0);
                assert_eq!((error.index, error.error.refusal()), (Some(index), refusal));
                assert!(error.to_string().starts_with(&format!("use {index}: ")));
            }
        }
    }
}

/// Each format's base, and bases of several of its instructions.
const BASES: [(Format, [u32; 2]); 6] = [
    (Format::Branch26, [B, 0x94000000]),
    (Format::Branch19, [0x5400000D, 0xB500001F]),
    (Format::Branch14, [TBZ_X3, 0xB7F8001F]),
    (Format::Adr21, [0x10000000, 0x1000001F]),
    (Format::Adrp21, [0x90000000, 0x9000001F]),
    (Format::Ldr19, [0x58000003, 0x9C00001F]),
];

/// A run in which each word waits for a label: each gets the word of `displacement_to` to the label's address, and all else stays.
#[test]
fn words_are_those_of_displacements_to_the_labels() {
    for base in [0, 4, 0x1000, 0x1FF0, 0xFFFF_FFFF_FFFF_F000, LAST - 8, LAST] {
        for (format, bases) in BASES {
            for word in bases {
                let mut lent = Lent::new(5, 9, 12, word);
                for (label, position) in [(0, 0), (1, 3), (2, 11), (4, 12)] {
                    lent.bind(place(base, position), label).unwrap();
                }
                let mut expected = lent.clone();
                for (used, label) in (1..10).zip([0, 1, 2, 4].into_iter().cycle()) {
                    let at = place(base, used);
                    assert_eq!(lent.add(at, label, format.number()), Ok(used));
                    let target = place(base, lent.labels[label as usize] - 1).address();
                    let run = bytes(&mut expected.words);
                    displacement_to(run, at, format, word, target).unwrap();
                }
                expected.uses = lent.uses.clone();
                assert_eq!(lent.finish(base), Ok(0));
                assert_eq!(lent, expected);
                assert_eq!(lent.finish(base), Ok(0));
                assert_eq!(lent, expected);
            }
        }
    }
}

/// From the greatest distances to one word more, forward and back.
#[test]
fn distances_reach_as_far_as_the_format_does() {
    for (by, right) in [(8191, true), (8192, false), (-8192, true), (-8193, false)] {
        let mut lent = Lent::new(1, 1, 9000, TBZ_X3);
        let (from, to) = if by > 0 { (3, 3 + by) } else { (8999, 8999 + by) };
        lent.bind(at(to as usize), 0).unwrap();
        lent.add(at(from as usize), 0, BRANCH_14).unwrap();
        assert_eq!(lent.finish(0x1000), if right { Ok(0) } else { Err(Refusal::Range) });
        let distance = vaimalofo::read_displacement(lent.words[from as usize], Format::Branch14);
        assert_eq!(distance, ByteDistance(if right { 4 * by } else { 0 }));
    }
}

/// A sheet is full at its own length, or at the limit where it is longer; a finish makes its room free again.
#[test]
fn a_sheet_is_full_at_its_length_or_the_limit() {
    for length in [0, 1, 2, 7, USES - 1, USES, USES + 1, 2000] {
        let room = length.min(USES);
        let mut lent = Lent::new(1, length, 2 * USES + 2, B);
        lent.bind(at(0), 0).unwrap();
        for round in 0..2 {
            let first = round * room;
            for used in 0..room {
                assert_eq!(lent.add(at(first + used), 0, BRANCH_26), Ok(used + 1));
            }
            assert_eq!(lent.add(at(first + room), 0, BRANCH_26), Err(Refusal::Full));
            if room > 0 {
                // What else is wrong comes before.
                assert_eq!(lent.add(at(first), 0, BRANCH_26), Err(Refusal::Again));
            }
            assert_eq!(lent.finish(0x1000), Ok(0));
            let waiting = Uses::resume(&mut lent.uses, lent.count).map(|uses| uses.is_empty());
            assert_eq!(waiting, Ok(true));
        }
        let back = |position: i64| B | (-position & 0x3FF_FFFF) as u32;
        let expected = (0..).map(back).take(2 * room);
        assert!(lent.words.iter().copied().take(2 * room).eq(expected));
        assert!(lent.words[2 * room..].iter().all(|word| *word == B));
    }
}

/// Counts that no sheet has: 14 of both, and of a use only where nothing else is wrong; no record behind the sheet is looked at.
#[test]
fn counts_above_the_sheet_are_refused() {
    for length in [0, 3, USES, USES + 9] {
        let room = length.min(USES);
        for count in [room + 1, length + 1, 2000, usize::MAX / 2, usize::MAX] {
            let mut lent = Lent::new(1, length, 8, B);
            lent.labels[0] = 1;
            lent.count = count;
            assert_eq!(lent.add(at(0), 0, BRANCH_26), Err(Refusal::Full));
            assert_eq!(lent.finish(0), Err(Refusal::Full));
            assert_eq!(lent.finish(1), Err(Refusal::Unaligned));
            assert_eq!(lent.add(at(0), 1, BRANCH_26), Err(Refusal::Label));
            let error = Uses::resume(&mut lent.uses, count).unwrap_err();
            assert_eq!(error, Error::Full { uses: count, room });
            if length > 0 {
                lent.uses[count.min(length) - 1].at = 0;
                assert_eq!(lent.add(at(0), 0, BRANCH_26), Err(Refusal::Again));
            }
        }
        let mut lent = Lent::new(0, length, 8, B);
        lent.count = room;
        assert_eq!(lent.finish(0), if room == 0 { Ok(0) } else { Err(Refusal::Unknown) });
    }
}

/// Records behind the count are not read: they may name the same word, or no label.
#[test]
fn what_stands_behind_the_count_does_not_matter() {
    let mut lent = Lent::new(2, 4, 4, B);
    lent.uses = vec![a_use(1, 2, BRANCH_26); 4];
    lent.bind(at(3), 0).unwrap();
    assert_eq!(lent.add(at(2), 0, BRANCH_26), Ok(1));
    assert_eq!(lent.add(at(2), 0, BRANCH_26), Err(Refusal::Again));
    assert_eq!(lent.finish(0), Ok(0));
    assert_eq!(lent.words, [B, B, B + 1, B]);
    assert_eq!(lent.uses, [&[a_use(0, 2, BRANCH_26)], &[a_use(1, 2, BRANCH_26); 3][..]].concat());
}

/// The same binds and uses in every order of two of each.
#[test]
fn the_order_of_calls_does_not_matter() {
    let calls = [(true, 0, 1), (true, 1, 6), (false, 1, 2), (false, 0, 5)];
    let mut all = vec![vec![]];
    for _ in calls {
        all = all
            .iter()
            .flat_map(|taken: &Vec<usize>| {
                let left = (0..4).filter(|next| !taken.contains(next));
                left.map(|next| [&taken[..], &[next]].concat())
            })
            .collect();
    }
    assert_eq!(all.len(), 24);
    for order in all {
        let mut lent = Lent::new(2, 2, 6, CBZ_X3);
        for (is_bind, label, position) in order.into_iter().map(|next| calls[next]) {
            if is_bind {
                lent.bind(at(position), label).unwrap();
            } else {
                lent.add(at(position), label, BRANCH_19).unwrap();
            }
        }
        assert_eq!(lent.finish(0x1000), Ok(0));
        let (on, back) = (CBZ_X3 | 4 << 5, CBZ_X3 | (-4_i32 as u32 & 0x7FFFF) << 5);
        assert_eq!(lent.words, [CBZ_X3, CBZ_X3, on, CBZ_X3, CBZ_X3, back]);
    }
}

/// Each error of a label, a use and a finish has its number, and prints so.
#[test]
fn errors_name_label_and_limit() {
    let mut lent = Lent::new(4, 2, 8, CBZ_X3);
    let say = |error: Error, number, text: &str| {
        assert_eq!((error.number(), error.to_string().as_str()), (number, text));
    };
    let mut labels = Labels::new(&mut lent.labels);
    let mut bind = |place, label| labels.bind(&lent.words, Label(label), place).unwrap_err();
    say(bind(place(0x1002, 9), 4), 15, "base address 0x1002 is not a multiple of 4");
    say(bind(at(9), 300), 12, "label 300 is none of the 4 from 0 on");
    say(bind(at(9), 0), 8, "label 0 at position 9 is past the end of a run of 8 words");
    lent.bind(at(7), 3).unwrap();
    let mut labels = Labels::resume(&mut lent.labels);
    say(
        labels.bind(&lent.words, Label(3), at(0)).unwrap_err(),
        13,
        "label 3 is bound already, at position 7",
    );

    let mut uses = Uses::new(&mut lent.uses);
    let mut add =
        |place, label, format| uses.add(&labels, &lent.words, Label(label), place, format);
    assert_eq!(add(at(0), 2, Format::Branch19), Ok(1));
    let mut no = |place, label, format| add(place, label, format).unwrap_err();
    let wrong = "word 0xb4000003 is no TBZ or TBNZ";
    say(no(place(1, 0), 2, Format::Branch14), 15, "base address 0x1 is not a multiple of 4");
    say(no(at(0), 4, Format::Branch14), 12, "label 4 is none of the 4 from 0 on");
    say(no(at(8), 2, Format::Branch14), 8, "no room at position 8 of a run of 8 words");
    say(no(at(0), 2, Format::Branch14), 11, wrong);
    say(no(at(0), 3, Format::Branch19), 16, "the word at position 0 waits for label 2 already");
    assert_eq!(add(at(1), 3, Format::Branch19), Ok(2));
    say(
        add(at(2), 3, Format::Branch19).unwrap_err(),
        14,
        "the sheet has room for 2 uses, and 3 were to wait",
    );
    lent.count = 2;
    let unbound = lent.unfinished(0x1000);
    assert_eq!(unbound.to_string(), "use 0: label 2 is not bound");
    let error: Box<dyn std::error::Error + Send + Sync> = Box::new(unbound);
    assert_eq!(error.to_string(), "use 0: label 2 is not bound");
    lent.labels[2] = 1 + 9;
    say(
        lent.unfinished(0x1000).into(),
        8,
        "label 2 at position 9 is past the end of a run of 8 words",
    );
    lent.uses[0].format = 6;
    say(lent.unfinished(0x1000).into(), 7, "6 is no format, which are 0 to 5");
    assert_eq!(lent.unfinished(0x1001).to_string(), "base address 0x1001 is not a multiple of 4");
}

/// The bytes of words are lent, and hold the words.
#[test]
fn bytes_are_those_of_the_words() {
    let mut code = [0x04030201, 0x08070605];
    assert_eq!(bytes(&mut code), [1, 2, 3, 4, 5, 6, 7, 8]);
    assert!(words(bytes(&mut code)).eq([0x04030201, 0x08070605]));
    mov(bytes(&mut code), place(0, 1), 0, Reg::X0).unwrap();
    assert_eq!(code, [0x04030201, 0xD2800000]);
    assert!(bytes(&mut []).is_empty());
    assert_eq!(mov(bytes(&mut []), at(0), 0, Reg::X0).unwrap_err().refusal(), Refusal::NoRoom);
}
