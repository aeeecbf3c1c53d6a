//! Sample memory in ranges, by seed: what stands at a base, cut into pieces whose bytes stand anywhere in a slice.
use crate::random::Random;
use oracle::ranges::Range;

/// Ranges that are allowed, and the slice that they are parts of.
pub struct Cut {
    pub ranges: Vec<Range>,
    pub slice: Vec<u8>,
}

/// Places in memory that stands at a base.
type Places = std::ops::Range<usize>;

/// How many ranges there may be, and where the last must end.
pub const MOST: usize = 16;
pub const END: u64 = 1 << 63;

/// The pieces of so many bytes: from and to, cut at any byte, as often in each of these places.
fn pieces(r: &mut Random, bytes: usize, places: &[Places]) -> Vec<[usize; 2]> {
    let mut bounds = vec![0, bytes];
    for _ in 0..r.below(MOST as u64) {
        let among = &places[r.below(places.len() as u64) as usize];
        bounds.push(among.start + r.below(among.len() as u64) as usize);
    }
    bounds.sort();
    bounds.dedup();
    bounds.windows(2).map(|w| [w[0], w[1]]).collect()
}

/// Takes bytes away, so that there are gaps: of a piece all, or a few at its front or its end.
fn lose(r: &mut Random, pieces: &mut [[usize; 2]]) {
    for _ in 0..1 + r.below(3) {
        let [from, to] = &mut pieces[r.below(pieces.len() as u64) as usize];
        let lost = (1 + r.below(4) as usize).min(*to - *from);
        match r.below(4) {
            0 => *to = *from,
            1 => *from += lost,
            _ => *to -= lost,
        }
    }
}

/// Puts the pieces' bytes into a slice, mostly in another sequence, some with bytes of no range before them.
fn placed(r: &mut Random, base: u64, memory: &[u8], pieces: &[[usize; 2]]) -> Cut {
    let mut ranges: Vec<Range> = pieces.iter().map(|[from, to]| Range::new(base + *from as u64, 0, (to - from) as u64)).collect();
    let mut turns: Vec<usize> = (0..pieces.len()).collect();
    if r.below(4) != 0 {
        for k in (1..turns.len()).rev() {
            turns.swap(k, r.below(k as u64 + 1) as usize);
        }
    }
    let mut slice = Vec::new();
    for k in turns {
        if r.below(3) == 0 {
            slice.extend(r.bytes(5));
        }
        ranges[k].start = slice.len() as u64;
        slice.extend(&memory[pieces[k][0]..pieces[k][1]]);
    }
    Cut { ranges, slice }
}

/// A place for a part of so many bytes: the slice's front, its end, or anywhere.
fn part(r: &mut Random, slice: &[u8], length: u64) -> u64 {
    let last = slice.len() as u64 - length;
    [0, last, r.below(last + 1)][r.below(3) as usize]
}

/// Empty ranges, between two others or beside them, as far as there is room.
fn add_empty(r: &mut Random, cut: &mut Cut) {
    for _ in 0..r.below(4).min((MOST - cut.ranges.len()) as u64) {
        let k = r.below(cut.ranges.len() as u64 + 1) as usize;
        let base = match (cut.ranges.get(k), k.checked_sub(1).map(|before| cut.ranges[before])) {
            (Some(next), None) => next.base,
            (Some(next), Some(_)) if r.below(2) == 0 => next.base,
            (_, Some(before)) => before.base + before.length,
            (None, None) => r.below(END),
        };
        let start = part(r, &cut.slice, 0);
        cut.ranges.insert(k, Range::new(base, start, 0));
    }
}

/// A range that no voice reads: below the others, or above them, up to 2^63.
fn add_far(r: &mut Random, cut: &mut Cut) {
    let length = r.below(cut.slice.len() as u64 / 4 + 1);
    let start = part(r, &cut.slice, length);
    let first = cut.ranges.first().map_or(0, |first| first.base);
    let end = cut.ranges.last().map_or(0, |last| last.base + last.length);
    if first > length && r.below(2) == 0 {
        cut.ranges.insert(0, Range::new(r.below(first - length), start, length));
    } else if end <= END - length {
        let base = [END - length, end, end + r.below(END - length - end + 1)][r.below(3) as usize];
        cut.ranges.push(Range::new(base, start, length));
    }
}

/// Memory of at least a byte that stands at a base, in up to 16 ranges. Mostly all of it is there; one time in three there are gaps, and
/// one in four some parts are shared, so that the title hears other bytes than its own.
pub fn cut(r: &mut Random, base: u64, memory: &[u8], places: &[Places]) -> Cut {
    let mut pieces = pieces(r, memory.len(), places);
    if r.below(3) == 0 {
        lose(r, &mut pieces);
    }
    let mut cut = placed(r, base, memory, &pieces);
    if r.below(4) == 0 {
        for _ in 0..1 + r.below(2) {
            let k = r.below(cut.ranges.len() as u64) as usize;
            cut.ranges[k].start = part(r, &cut.slice, cut.ranges[k].length);
        }
    }
    add_empty(r, &mut cut);
    if cut.ranges.len() < MOST && r.below(2) == 0 {
        add_far(r, &mut cut);
    }
    match r.below(100) {
        0 => cut.ranges.clear(),
        1 => {
            cut.slice.clear();
            cut.ranges.iter_mut().for_each(|range| (range.start, range.length) = (0, 0));
        }
        2 => cut.slice.extend(r.bytes(3)),
        _ => {}
    }
    cut
}

/// The ranges' numbers for a call; sometimes one or two more, which are no range.
pub fn numbers(r: &mut Random, ranges: &[Range]) -> Vec<u64> {
    let mut numbers: Vec<u64> = ranges.iter().flat_map(|range| [range.base, range.start, range.length]).collect();
    if r.below(4) == 0 {
        for _ in 0..1 + r.below(2) {
            numbers.push([0, u64::MAX, r.next()][r.below(3) as usize]);
        }
    }
    numbers
}
