//! States by a list of clauses: all are met but those that are to be broken, and a field that no clause names holds anything.
use crate::clauses::{Clause, Field, PARAMETERS, SAMPLES, State, place, right_lengths};
use crate::random::Random;

/// A clause whose field is to be at a limit of what is allowed, or outside.
#[derive(Clone, Copy)]
pub struct Aim {
    pub clause: usize,
    pub inside: bool,
}

/// What became of an aim: the row that was taken (first, middle, last, or the only one), and which of the values to try was.
#[derive(Clone, Copy)]
pub struct Hit {
    pub aim: Aim,
    pub row: usize,
    pub value: usize,
}

pub const FIRST: usize = 0;
pub const MIDDLE: usize = 1;
pub const LAST: usize = 2;
pub const ONLY: usize = 3;

/// Fractions: 0, -0, the least and the largest below 1; 1, the least negative, NaNs, infinities, 2, -1, and the largest numbers.
const FRACTIONS: [u32; 15] = [
    0, 0x8000_0000, 1, 0x3f7f_ffff, 0x3f80_0000, 0x8000_0001, 0x7fc0_0000, 0x7f80_0001, 0xffc0_0000, 0x7f80_0000, 0xff80_0000,
    0x4000_0000, 0xbf80_0000, 0x7f7f_ffff, 0xff7f_ffff,
];
/// The largest count for which slices are made; above it the slices are those of another count.
const MADE: u32 = 600;

/// A number from low to high.
fn between(r: &mut Random, low: i64, high: i64) -> i64 {
    if high <= low { low } else { low + r.below((high - low + 1) as u64) as i64 }
}

/// A value for an aim where low to high is allowed: a limit; or one beyond, the largest number, numbers whose lowest bits are allowed, any.
/// `now` is what the field holds. With the value comes its place in this list.
fn number(r: &mut Random, (low, high): (i64, i64), now: u32, inside: bool) -> Option<(usize, u32)> {
    let v = between(r, low, high);
    let kind = r.below(if inside { 2 } else { 7 }) as usize;
    let value = match kind {
        _ if inside => [low, high][kind],
        0 => low - 1,
        1 => high + 1,
        2 => i64::from(u32::MAX),
        3 => i64::from(now) + (1 << 31),
        4 => v + 256,
        5 => v + 65536,
        _ => r.next() as u32 as i64,
    };
    let fits = u32::try_from(value).ok()?;
    ((low <= value && value <= high) == inside).then_some((kind, fits))
}

/// A value that the clause allows in a row.
fn allowed(r: &mut Random, c: &Clause, s: &State, row: u64) -> u32 {
    if c.field == Field::Fraction {
        let any = (r.below(1 << 24) as f32 / (1 << 24) as f32).to_bits();
        return aimed(r, c, s, row, true).map_or(if c.allows(s, row, any) { any } else { 0x3f00_0000 }, |(_, v)| v);
    }
    let (low, high) = c.range(s, row);
    between(r, low, high).max(0) as u32
}

/// A value for an aim in a row.
fn aimed(r: &mut Random, c: &Clause, s: &State, row: u64, inside: bool) -> Option<(usize, u32)> {
    if c.field == Field::Fraction {
        let k = r.below(FRACTIONS.len() as u64 + 1) as usize;
        let v = FRACTIONS.get(k).copied().unwrap_or_else(|| r.next() as u32);
        return (c.allows(s, row, v) == inside).then_some((k, v));
    }
    number(r, c.range(s, row), c.value(s, row).unwrap_or(0), inside)
}

/// Ten parameters: counts that are allowed, most often small ones; anything where there is no clause.
fn parameters(list: &[Clause], r: &mut Random, size: Size) -> [u32; PARAMETERS] {
    let mut p = [0; PARAMETERS].map(|_: u32| r.next() as u32);
    if r.below(2) == 0 {
        p[9] = 0x3056_4552 + ((r.below(12) as u32) << 24);
    }
    let named = State { words: p.to_vec(), longs: vec![], floats: vec![], contexts: vec![], history: vec![] };
    for k in SAMPLES..=8 {
        let clause = list.iter().find(|c| c.field == Field::Parameter(k));
        let Some((low, high)) = clause.map(|c| c.range(&named, 0)) else {
            p[k] = r.below(140) as u32;
            continue;
        };
        p[k] = match size {
            Size::Small => between(r, low, high.min(low + 4)),
            Size::Any => between(r, low, high),
            Size::Largest => high,
        } as u32;
    }
    p
}

/// How large the counts are.
#[derive(Clone, Copy)]
pub enum Size {
    Small,
    Any,
    Largest,
}

/// n numbers of a style: any bits, small, all ones, or a mixture.
fn fill(r: &mut Random, style: u64, n: u64) -> Vec<u64> {
    let any = |r: &mut Random| match style {
        0..4 => r.next(),
        4 => r.next() & 0x0000_0007_0000_0007,
        5 => !0,
        _ => [r.next(), r.next() & 0x0000_00ff_0000_00ff, !0, 0][r.below(4) as usize],
    };
    (0..n).map(|_| any(r)).collect()
}

/// n numbers of 32 bits.
fn fill32(r: &mut Random, style: u64, n: u64) -> Vec<u32> {
    let mut out: Vec<u32> = fill(r, style, n.div_ceil(2)).into_iter().flat_map(|x| [x as u32, (x >> 32) as u32]).collect();
    out.truncate(n as usize);
    out
}

/// Slices of the right lengths that hold anything behind the parameters.
fn filled(r: &mut Random, p: &[u32; PARAMETERS]) -> State {
    let [words, longs, floats, contexts, history] = right_lengths(p);
    let style = r.below(8);
    let mut s = State {
        words: fill32(r, style, words),
        longs: fill(r, style, longs),
        floats: fill32(r, style, floats),
        contexts: fill32(r, style, contexts).into_iter().map(|x| x as u16).collect(),
        history: fill32(r, style, history),
    };
    s.words[..PARAMETERS].copy_from_slice(p);
    s
}

/// Makes a slice of a state so long; what is added is anything.
fn cut(r: &mut Random, s: &mut State, k: usize, n: usize) {
    let any = r.next();
    match k {
        0 => s.words.resize(n, any as u32),
        1 => s.longs.resize(n, any),
        2 => s.floats.resize(n, any as u32),
        3 => s.contexts.resize(n, any as u16),
        _ => s.history.resize(n, any as u32),
    }
}

/// Another length than n: one less, one more, 0, any.
fn other(r: &mut Random, n: u64) -> Option<(usize, u64)> {
    let kind = r.below(4) as usize;
    let value = match kind {
        0 => n.checked_sub(1)?,
        1 => n + 1,
        2 => 0,
        _ => r.below(2 * n + 8),
    };
    (value != n).then_some((kind, value))
}

/// A first, middle or last row of n, with its number.
fn some_row(r: &mut Random, n: u64) -> (usize, u64) {
    if n < 2 {
        return (ONLY, 0);
    }
    match r.below(if n < 3 { 2 } else { 3 }) {
        0 => (FIRST, 0),
        1 => (LAST, n - 1),
        _ => (MIDDLE, 1 + r.below(n - 2)),
    }
}

/// The state for some aims, and what became of each.
pub fn make(list: &[Clause], r: &mut Random, aims: &[Aim], size: Size) -> (State, Vec<Hit>) {
    let mut hits = vec![];
    let mut p = parameters(list, r, size);
    let mut late = vec![];
    for &aim in aims {
        let c = &list[aim.clause];
        let counts = State { words: p.to_vec(), longs: vec![], floats: vec![], contexts: vec![], history: vec![] };
        match c.field {
            // A row's clause needs a row.
            Field::Word(..) | Field::Fraction if c.rows(&p) == 0 => {
                for k in [4, 5, 7, 8] {
                    p[k] = p[k].max(1 + r.below(4) as u32);
                }
            }
            Field::Parameter(k) => {
                let found = (0..40).find_map(|_| number(r, c.range(&counts, 0), p[k], aim.inside));
                let Some((value, n)) = found else { continue };
                if n <= MADE { p[k] = n } else { late.push((k, n)) }
                hits.push(Hit { aim, row: ONLY, value });
            }
            _ => {}
        }
    }
    let mut s = filled(r, &p);
    for (k, c) in list.iter().enumerate() {
        if matches!(c.field, Field::Parameter(_) | Field::Length(_)) {
            continue;
        }
        let (n, aim) = (c.rows(&p), aims.iter().find(|a| a.clause == k));
        let (part, chosen) = some_row(r, n);
        for row in 0..n {
            let mut v = allowed(r, c, &s, row);
            if let Some(&aim) = aim.filter(|_| row == chosen) {
                if let Some((value, x)) = (0..40).find_map(|_| aimed(r, c, &s, row, aim.inside)) {
                    v = x;
                    hits.push(Hit { aim, row: part, value });
                }
            }
            match c.field {
                Field::Word(kind, field) => s.words[place(&p, kind, row, field)] = v,
                _ => s.floats[row as usize * 4 + 3] = v,
            }
        }
    }
    for (k, n) in late {
        s.words[k] = n;
    }
    for k in 0..5 {
        let aim = aims.iter().find(|a| list[a.clause].field == Field::Length(k));
        let free = !list.iter().any(|c| c.field == Field::Length(k));
        let n = s.lengths()[k];
        if let Some(&aim) = aim {
            let found = if aim.inside { Some((0, n)) } else { (0..40).find_map(|_| other(r, n)) };
            let Some((value, n)) = found else { continue };
            cut(r, &mut s, k, n as usize);
            hits.push(Hit { aim, row: ONLY, value });
        } else if free && r.below(8) == 0 {
            let (_, n) = other(r, n).unwrap_or((0, n));
            cut(r, &mut s, k, n as usize);
        }
    }
    (s, hits)
}
