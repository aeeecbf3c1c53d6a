//! Ranges that are refused, by seed: of ranges that are allowed, with one reason for a refusal or several at once.
use crate::cuts::{Cut, END, MOST};
use crate::random::Random;
use oracle::ranges::Range;

/// A part that lies outside the slice: by one byte, by far, by a sum that goes past 2^64, or by the length of the last range.
fn part(r: &mut Random, Cut { ranges, slice }: &mut Cut) {
    let (bytes, last) = (slice.len() as u64, ranges.len() - 1);
    let k = r.below(ranges.len() as u64) as usize;
    match r.below(5) {
        0 => ranges[last].length = bytes - ranges[last].start + 1,
        1 => ranges[k].start = bytes + 1 + r.below(64),
        2 => ranges[k].start = u64::MAX - r.below(4),
        3 => ranges[k].start = ranges[k].length.wrapping_neg().wrapping_sub(u64::from(ranges[k].length == 0)),
        _ => ranges[k].start = bytes - ranges[k].length + 1,
    }
}

/// A base below the end of the range before: by one, by another sequence, or by an end of 2^64 or more before it.
fn below(r: &mut Random, Cut { ranges, .. }: &mut Cut) {
    let k = 1 + r.below(ranges.len() as u64 - 1) as usize;
    let before = ranges[k - 1];
    match r.below(4) {
        0 => ranges.swap(k - 1, k),
        1 if before.length > 0 => ranges[k - 1].base = u64::MAX - r.below(before.length),
        _ => ranges[k].base = before.base.wrapping_add(before.length).saturating_sub(1),
    }
}

/// An end above 2^63: of the last range by one or by far, or of all from one on.
fn far(r: &mut Random, Cut { ranges, .. }: &mut Cut) {
    let last = ranges.len() - 1;
    match r.below(3) {
        0 => ranges[last].base = u64::MAX - r.below(3),
        1 => {
            let k = if r.below(2) == 0 { 0 } else { r.below(ranges.len() as u64) as usize };
            ranges[k..].iter_mut().for_each(|range| range.base = range.base.saturating_add(END));
        }
        _ => ranges[last].base = END.wrapping_sub(ranges[last].length).wrapping_add(1),
    }
}

/// More than 16 ranges: empty ones behind the last.
fn many(r: &mut Random, Cut { ranges, slice }: &mut Cut) {
    let base = ranges.last().map_or(0, |last| last.base.saturating_add(last.length));
    let count = MOST + 1 + [0, r.below(3) as usize, 40][r.below(3) as usize];
    ranges.resize(count.max(ranges.len()), Range::new(base, slice.len() as u64, 0));
}

/// The reasons that can be put into ranges, a bit each.
pub const PART: u64 = 1;
pub const BELOW: u64 = 2;
pub const FAR: u64 = 4;
pub const MANY: u64 = 8;

/// Puts reasons for a refusal into ranges that are allowed.
pub fn put(r: &mut Random, cut: &mut Cut, wanted: u64) {
    while cut.ranges.len() < 2 {
        let base = cut.ranges.last().map_or(0, |last| last.base + last.length);
        cut.ranges.push(Range::new(base, 0, 0));
    }
    let reasons: [(u64, fn(&mut Random, &mut Cut)); 4] = [(PART, part), (BELOW, below), (FAR, far), (MANY, many)];
    for (bit, put) in reasons {
        if wanted & bit != 0 {
            put(r, cut);
        }
    }
}

/// Puts such reasons into ranges, and takes floats from the frames for one more.
pub fn spoil(r: &mut Random, cut: &mut Cut, spare: &mut i64) {
    let wanted = 1 + r.below(31);
    put(r, cut, wanted);
    if wanted >> 4 != 0 {
        *spare = -1 - [0, 1, r.below(512) as i64][r.below(3) as usize];
    }
}
