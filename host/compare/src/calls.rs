//! One request of the oracle, asked of a C entry in a watched run of bytes, and compared.

use oracle::document::words;
use oracle::replay::answer::{Answer, Said};
use oracle::replay::request::{entry::*, Request};
use oracle::replay::{settle, Settled};
use vaimalofo::{raw, Address, Fields, Place, Reached, Refusal, WordPos};

use crate::tally::Tally;

/// Bytes on each side of a run that nothing may touch.
const GUARD: usize = 16;
const GUARD_BYTE: u8 = 0x3C;
const TAIL_BYTE: u8 = 0xC3;

/// A run of words, as bytes with a tail under four, between two guards.
pub struct Watched {
    all: Vec<u8>,
    words: usize,
    tail: usize,
}

impl Watched {
    pub fn new(words: &[u32], tail: usize) -> Self {
        let mut all = vec![GUARD_BYTE; GUARD];
        all.extend(words.iter().flat_map(|word| word.to_le_bytes()));
        all.extend(vec![TAIL_BYTE; tail]);
        all.extend([GUARD_BYTE; GUARD]);
        Self { all, words: words.len(), tail }
    }

    pub fn run(&mut self) -> &mut [u8] {
        let end = self.all.len() - GUARD;
        &mut self.all[GUARD..end]
    }

    /// The words after the call, where no byte outside of them has changed.
    pub fn words(&self) -> Result<Vec<u32>, &'static str> {
        let end = GUARD + 4 * self.words;
        let (front, back) = (&self.all[..GUARD], &self.all[end + self.tail..]);
        if front.iter().chain(back).any(|byte| *byte != GUARD_BYTE) {
            return Err("a byte outside of the run has changed");
        }
        if self.all[end..end + self.tail].iter().any(|byte| *byte != TAIL_BYTE) {
            return Err("a byte of the tail has changed");
        }
        Ok(crate::words(&self.all[GUARD..end]))
    }
}

/// What a function that writes answers at a place of a run of these words, as the oracle spells it: of the new place the position alone,
/// since the base address stays. Position numbers beyond usize are not asked.
pub fn lent(
    words: &[u32],
    tail: usize,
    place: words::Place,
    write: impl FnOnce(&mut [u8], Place) -> Result<Place, Refusal>,
) -> Result<Answer, String> {
    let mut watched = Watched::new(words, tail);
    let (base, position) = (Address(place.base), WordPos(place.position as usize));
    let at = Place { base, position };
    if at.address() != Address(place.address()) {
        return Err(format!("{at:x?} is said to have {:x?}", at.address()));
    }
    let answer = write(watched.run(), at);
    let run = watched.words()?;
    let said = match answer {
        Ok(end) if end.base != base => return Err(format!("the base became {:x?}", end.base)),
        Ok(end) => Said::Numbers(vec![end.position.0 as u64]),
        Err(refusal) => Said::No(refusal.number().into()),
    };
    Ok(Answer { said, run })
}

/// The same of a function that writes to a target, with the low bits that it carries.
pub fn lent_to(
    words: &[u32],
    tail: usize,
    place: words::Place,
    write: impl FnOnce(&mut [u8], Place) -> Result<Reached, Refusal>,
) -> Result<Answer, String> {
    let mut low = None;
    let answer = lent(words, tail, place, |run, at| {
        let Reached { place, low12 } = write(run, at)?;
        low = low12.map(u64::from);
        Ok(place)
    });
    Ok(answer?.carrying(low))
}

/// Numbers, or a refusal's.
fn numbers(answer: Result<Vec<u64>, Refusal>) -> Answer {
    match answer {
        Ok(numbers) => Answer::numbers(&numbers),
        Err(refusal) => Answer::no(refusal.number().into()),
    }
}

fn number(answer: Result<impl Into<u64>, Refusal>) -> Answer {
    numbers(answer.map(|number| vec![number.into()]))
}

fn fields(answer: Result<Fields, Refusal>) -> Answer {
    numbers(answer.map(|f| [f.n, f.s, f.r, f.length].map(u64::from).to_vec()))
}

/// A value of 64 bits, or a refusal's number.
fn wide(answer: Result<u64, Refusal>) -> Answer {
    answer.map_or_else(|refusal| Answer::no(refusal.number().into()), Answer::wide)
}

/// The answer of the C entry of a request, and the run that it has written in.
fn asked(r: &Request, tail: usize) -> Result<Answer, String> {
    let [a, b, c, d, e, ..] = [0, 1, 2, 3, 4].map(|i| r.low(i));
    let [first, second, third, ..] = r.args;
    let (run, at) = (|i| r.run(i), r.place());
    match r.entry {
        MOVE => lent(&run(2), tail, at, |run, at| raw::mov(run, at, first, b)),
        PATCHABLE_MOVE => {
            lent(&run(3), tail, at, |run, at| raw::patchable_mov(run, at, first, b, c))
        }
        LOGICAL_WORD => {
            lent(&run(5), tail, at, |run, at| raw::logical_word(run, at, a, second, c, d, e))
        }
        DISP_IMM => {
            lent(&run(3), tail, at, |run, at| raw::displacement(run, at, a, b, third as i64))
        }
        DISP_TARGET => {
            lent_to(&run(3), tail, at, |run, at| raw::displacement_to(run, at, a, b, third))
        }
        _ => answered(r),
    }
}

/// The answer of a C entry that is given numbers alone; the decoder's run is the safe function's own.
fn answered(r: &Request) -> Result<Answer, String> {
    let [a, b, c, d] = [0, 1, 2, 3].map(|i| r.low(i));
    let value = r.args[0];
    Ok(match r.entry {
        ENCODE_LOGICAL => fields(raw::logical_fields(value, b)),
        DECODE_LOGICAL => wide(raw::decode_logical(a, b, c, d)),
        NORMALISE => fields(raw::normalise_logical(a, b, c, d)),
        READ_DISP => wide(raw::read_displacement(a, b).map(|distance| distance as u64)),
        HAS_FORM => number(raw::has_form(a, b)),
        COUNT_ZERO_HALF_WORDS => number(Ok(raw::count_zero_half_words(value))),
        CHECK_GP_ID => number(Ok(raw::check_gp_id(a, b))),
        CHECK_VEC_ID => number(Ok(raw::check_vec_id(a))),
        CONDITION_FIELD => number(Ok(raw::cond_field(a))),
        ENCODE_FLOAT => number(raw::float_imm8(value, b)),
        IS_FP16 => number(raw::is_float_imm8(value, 16)),
        IS_FP32 => number(raw::is_float_imm8(value, 32)),
        IS_FP64 => number(raw::is_float_imm8(value, 64)),
        ENCODE_BYTE_MASK => number(raw::byte_mask_imm8(value)),
        other => return Err(format!("entry {other} has no C entry")),
    })
}

/// Asks a C entry, the Rust and document 01; the run has a tail of 0 to 3 bytes behind it.
pub fn compare(r: &Request, tail: usize, tally: &mut Tally) {
    let settled = match settle(r) {
        Ok(settled) => settled,
        Err(why) => return tally.fails(|| why),
    };
    let (Settled::Same(expected) | Settled::Differs(_, expected)) = &settled;
    match asked(r, tail) {
        Ok(answer) if answer == *expected => match settled {
            Settled::Same(_) => tally.same += 1,
            Settled::Differs(class, _) => tally.differs(class),
        },
        Ok(answer) => tally.fails(|| {
            format!("{r}, tail {tail}: the C entry answers {answer:x?}, expected {expected:x?}")
        }),
        Err(why) => tally.fails(|| format!("{r}, tail {tail}: {why}")),
    }
}
