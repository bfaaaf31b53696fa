//! Document 01's moves and logical immediates as one would write them in plain Rust, for timing: by the batch program of this package, and by
//! `host/compare`, which also holds them to the model of document 01.

/// The words of a move to a register below 31, and how many they are.
#[inline]
pub fn move_words(value: u64, rd: u32) -> ([u32; 4], usize) {
    let wide =
        |base: u32, place: usize, half: u64| base | (place as u32) << 21 | (half as u32) << 5 | rd;
    if value <= 0xFFFF_FFFF {
        let (high, low) = (value >> 16, value & 0xFFFF);
        return match (high, low) {
            (0, _) => ([wide(0xD280_0000, 0, low), 0, 0, 0], 1),
            (0xFFFF, _) => ([wide(0x1280_0000, 0, low ^ 0xFFFF), 0, 0, 0], 1),
            (_, 0) => ([wide(0xD280_0000, 1, high), 0, 0, 0], 1),
            (_, 0xFFFF) => ([wide(0x1280_0000, 1, high ^ 0xFFFF), 0, 0, 0], 1),
            _ => ([wide(0xD280_0000, 0, low), wide(0xF280_0000, 1, high), 0, 0], 2),
        };
    }
    let halves = [0, 16, 32, 48].map(|at| value >> at & 0xFFFF);
    let count_of = |half: u64| halves.iter().filter(|h| **h == half).count();
    let inverted = count_of(0xFFFF) > count_of(0);
    let filler = if inverted { 0xFFFF } else { 0 };
    let (mut words, mut count) = ([0; 4], 0);
    for (place, half) in halves.into_iter().enumerate() {
        if half == filler {
            continue;
        }
        words[count] = match (count, inverted) {
            (0, false) => wide(0xD280_0000, place, half),
            (0, true) => wide(0x9280_0000, place, half ^ 0xFFFF),
            _ => wide(0xF280_0000, place, half),
        };
        count += 1;
    }
    if count == 0 {
        return ([wide(0x9280_0000, 0, 0), 0, 0, 0], 1);
    }
    (words, count)
}

/// N, S, R and the element's length at width 32 or 64: the shortest element that repeats, then the run in it.
#[inline]
pub fn logical_fields(value: u64, width: u32) -> Option<[u32; 4]> {
    let value = value & (u64::MAX >> (64 - width));
    let mut size = width;
    while size > 2 {
        let half = size / 2;
        let mask = (1u64 << half) - 1;
        if value & mask != value >> half & mask {
            break;
        }
        size = half;
    }
    let all = u64::MAX >> (64 - size);
    let element = value & all;
    if element == 0 || element == all {
        return None;
    }
    // Turned so that a run starts at bit 0: past the ones at the low end, if there are any, and past the zeros.
    let skipped = (!element).trailing_zeros() % size;
    let turned = turn(element, skipped, size);
    let zeros = turned.trailing_zeros();
    let low = turn(turned, zeros, size);
    let ones = low.trailing_ones();
    if low != u64::MAX >> (64 - ones) {
        return None;
    }
    let prefix = if size == 64 { 0 } else { !(2 * size - 1) & 0x3F };
    let r = (2 * size - skipped - zeros) % size;
    Some([u32::from(size == 64), prefix | (ones - 1), r, size])
}

/// An element turned to the right.
fn turn(element: u64, by: u32, size: u32) -> u64 {
    match by % size {
        0 => element,
        by => (element >> by | element << (size - by)) & (u64::MAX >> (64 - size)),
    }
}
