//! Labels bound late by a plain Rust program, over what the C entries are lent: the other side of `speed`, and what the wrong programs are
//! made of that the comparison must find out.

use vaimalofo::{Address, Place, Refusal, Use};

/// Labels are numbered below this, and at most so many uses wait.
const LABELS: usize = 256;
const USES: usize = 1024;

/// The bits of each format's field.
const FIELDS: [u32; 6] =
    [0x03FF_FFFF, 0x00FF_FFE0, 0x0007_FFE0, 0x60FF_FFE0, 0x60FF_FFE0, 0x00FF_FFE0];

pub fn bind(labels: &mut [usize], words: &[u32], at: Place, label: u32) -> Result<(), Refusal> {
    aligned(at.base)?;
    if entry(labels, label)? != 0 {
        return Err(Refusal::Twice);
    }
    if at.position.0 > words.len() {
        return Err(Refusal::NoRoom);
    }
    labels[label as usize] = at.position.0 + 1;
    Ok(())
}

pub fn use_label(
    uses: &mut [Use],
    count: usize,
    labels: &[usize],
    words: &[u32],
    at: Place,
    label: u32,
    format: u32,
) -> Result<usize, Refusal> {
    let position = at.position.0;
    aligned(at.base)?;
    known(format)?;
    entry(labels, label)?;
    empty(format, *words.get(position).ok_or(Refusal::NoRoom)?)?;
    if uses[..count.min(uses.len())].iter().any(|earlier| earlier.at == position) {
        return Err(Refusal::Again);
    }
    if count >= room(uses) {
        return Err(Refusal::Full);
    }
    uses[count] = Use { label, at: position, format };
    Ok(count + 1)
}

pub fn finish(
    uses: &[Use],
    count: usize,
    labels: &[usize],
    words: &mut [u32],
    base: Address,
) -> Result<usize, Refusal> {
    aligned(base)?;
    if count > room(uses) {
        return Err(Refusal::Full);
    }
    let uses = &uses[..count];
    for (i, one) in uses.iter().enumerate() {
        finished(&uses[..i], *one, labels, words, base)?;
    }
    for one in uses {
        words[one.at] = finished(&[], *one, labels, words, base)?;
    }
    Ok(0)
}

/// The word of a use, after those that stand before it.
fn finished(
    before: &[Use],
    one: Use,
    labels: &[usize],
    words: &[u32],
    base: Address,
) -> Result<u32, Refusal> {
    known(one.format)?;
    let target = entry(labels, one.label)?.checked_sub(1).ok_or(Refusal::Label)?;
    let word = *words.get(one.at).ok_or(Refusal::NoRoom)?;
    if target > words.len() {
        return Err(Refusal::NoRoom);
    }
    empty(one.format, word)?;
    if before.iter().any(|earlier| earlier.at == one.at) {
        return Err(Refusal::Again);
    }
    let address = |position: usize| base.0.wrapping_add(4 * position as u64);
    Ok(word | field(one.format, address(target), address(one.at))?)
}

fn aligned(base: Address) -> Result<(), Refusal> {
    if base.0 & 3 == 0 {
        Ok(())
    } else {
        Err(Refusal::Unaligned)
    }
}

fn known(format: u32) -> Result<(), Refusal> {
    if format < 6 {
        Ok(())
    } else {
        Err(Refusal::Unknown)
    }
}

/// A label's entry.
fn entry(labels: &[usize], label: u32) -> Result<usize, Refusal> {
    let labels = &labels[..labels.len().min(LABELS)];
    labels.get(label as usize).copied().ok_or(Refusal::Label)
}

fn room(uses: &[Use]) -> usize {
    uses.len().min(USES)
}

/// A word of the format's form with nothing in its field.
fn empty(format: u32, word: u32) -> Result<(), Refusal> {
    let form = match format {
        0 => word & 0x7C00_0000 == 0x1400_0000,
        1 => word & 0xFF00_0010 == 0x5400_0000 || word & 0x7E00_0000 == 0x3400_0000,
        2 => word & 0x7E00_0000 == 0x3600_0000,
        3 => word & 0x9F00_0000 == 0x1000_0000,
        4 => word & 0x9F00_0000 == 0x9000_0000,
        _ => word & 0x3B00_0000 == 0x1800_0000 && word & 0xC400_0000 != 0xC400_0000,
    };
    if !form {
        return Err(Refusal::WrongForm);
    }
    if word & FIELDS[format as usize] != 0 {
        return Err(Refusal::Taken);
    }
    Ok(())
}

/// The field's bits for the distance from one address to another. Both are multiples of 4, so it is on the step.
fn field(format: u32, target: u64, address: u64) -> Result<u32, Refusal> {
    let (shift, bits) = [(2, 26), (2, 19), (2, 14), (0, 21), (12, 21), (2, 19)][format as usize];
    let steps =
        ((target >> shift << shift).wrapping_sub(address >> shift << shift) as i64) >> shift;
    if steps < -(1 << (bits - 1)) || steps >= 1 << (bits - 1) {
        return Err(Refusal::Range);
    }
    let steps = steps as u32;
    Ok(match format {
        0 => steps & FIELDS[0],
        3 | 4 => (steps & 3) << 29 | steps << 3 & FIELDS[1],
        _ => steps << 5 & FIELDS[format as usize],
    })
}
