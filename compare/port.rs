//! The port's calls as the drivers make them, on slices that the driver owns.
use crate::random::bits;
use oracle::mixer::probe::Slices;

// The interface is declared once, in the Rust crate that titles link.
#[allow(dead_code)]
#[path = "../bindings/rust/src/sys/mod.rs"]
mod sys;
use sys::{jeqlluna_lengths, jeqlluna_open, jeqlluna_render, jeqlluna_render_section, jeqlluna_update};
#[allow(unused_imports)]
pub use sys::{Lengths, Render, Update};

pub fn lengths(parameters: &[u8]) -> Lengths {
    unsafe { jeqlluna_lengths(parameters.as_ptr(), parameters.len()) }
}

pub fn open(parameters: &[u8], s: &mut Slices) -> u32 {
    unsafe {
        jeqlluna_open(
            parameters.as_ptr(), parameters.len(), s.words.as_mut_ptr(), s.words.len(), s.longs.as_mut_ptr(), s.longs.len(), s.floats.as_mut_ptr(),
            s.floats.len(), s.contexts.as_mut_ptr(), s.contexts.len(), s.history.as_mut_ptr(), s.history.len(),
        )
    }
}

pub fn update(s: &mut Slices, expected: u32, input: &[u8], reply: &mut [u8]) -> Update {
    unsafe {
        jeqlluna_update(
            s.words.as_mut_ptr(), s.words.len(), s.longs.as_mut_ptr(), s.longs.len(), s.floats.as_mut_ptr(), s.floats.len(),
            s.contexts.as_mut_ptr(), s.contexts.len(), s.history.as_mut_ptr(), s.history.len(), expected, input.as_ptr(), input.len(),
            reply.as_mut_ptr(), reply.len(),
        )
    }
}

/// The numbers of one range: all of a slice, from an address on.
#[allow(dead_code)]
pub fn whole(base: u64, memory: &[u8]) -> [u64; 3] {
    [base, 0, memory.len() as u64]
}

/// A render with sample memory in ranges, three numbers each.
pub fn render(s: &mut Slices, ranges: &[u64], memory: &[u8], frames: &mut [f32]) -> Render {
    unsafe {
        jeqlluna_render(
            s.words.as_mut_ptr(), s.words.len(), s.longs.as_mut_ptr(), s.longs.len(), s.floats.as_mut_ptr(), s.floats.len(),
            s.contexts.as_mut_ptr(), s.contexts.len(), s.history.as_mut_ptr(), s.history.len(), ranges.as_ptr(), ranges.len(),
            memory.as_ptr(), memory.len(), frames.as_mut_ptr(), frames.len(),
        )
    }
}

/// So many renders in one call, likewise.
#[allow(dead_code)]
pub fn section(s: &mut Slices, count: u32, ranges: &[u64], memory: &[u8], frames: &mut [f32]) -> Render {
    unsafe {
        jeqlluna_render_section(
            s.words.as_mut_ptr(), s.words.len(), s.longs.as_mut_ptr(), s.longs.len(), s.floats.as_mut_ptr(), s.floats.len(),
            s.contexts.as_mut_ptr(), s.contexts.len(), s.history.as_mut_ptr(), s.history.len(), count, ranges.as_ptr(), ranges.len(),
            memory.as_ptr(), memory.len(), frames.as_mut_ptr(), frames.len(),
        )
    }
}

/// What is compared of a state: every NaN as one, and nothing of a list beyond its length or of factors that are not given.
pub fn seen(s: &Slices) -> (Vec<u32>, Vec<u64>, Vec<u32>, Vec<u16>, Vec<u32>) {
    let (mut words, mut floats) = (s.words.clone(), all(&s.floats));
    let p = &s.words[..10];
    let (mixes, voices, sinks, splitters) = (p[3] as usize + 1, p[4] as usize, p[5] as usize, p[7] as usize);
    let at = 10 + voices * 58 + mixes * 5;
    let factors = voices * 52 + mixes * 577;
    for k in 0..sinks {
        let row = &mut words[at + k * 10..][..10];
        for i in row[2] as usize..6 {
            row[3 + i] = 0;
        }
        if row[9] == 0 {
            floats[factors + k * 4..][..4].fill(0);
        }
    }
    for k in 0..splitters {
        let row = &mut words[at + sinks * 10 + k * 129..][..129];
        let n = row[0] as usize;
        row[1 + n..].fill(0);
    }
    (words, s.longs.clone(), floats, s.contexts.clone(), all(&s.history))
}

/// Whether two states are the same to the bit, as where a call is refused.
pub fn unchanged(a: &Slices, b: &Slices) -> bool {
    let bits = |s: &[f32]| s.iter().map(|x| x.to_bits()).collect::<Vec<u32>>();
    let numbers = (&a.words, &a.longs, &a.contexts) == (&b.words, &b.longs, &b.contexts);
    numbers && bits(&a.floats) == bits(&b.floats) && bits(&a.history) == bits(&b.history)
}

/// The bits of floats, with every NaN counted as one.
pub fn all(s: &[f32]) -> Vec<u32> {
    s.iter().map(|&x| bits(x)).collect()
}

/// The first place at which two slices differ.
pub fn place<T: PartialEq>(a: &[T], b: &[T]) -> Option<usize> {
    if a.len() != b.len() { Some(a.len().min(b.len())) } else { a.iter().zip(b).position(|(x, y)| x != y) }
}

/// The first places at which two states differ, by slice.
pub fn places(a: &Slices, b: &Slices) -> String {
    let (a, b) = (seen(a), seen(b));
    let (words, longs, floats) = (place(&a.0, &b.0), place(&a.1, &b.1), place(&a.2, &b.2));
    format!("words {words:?}, longs {longs:?}, floats {floats:?}, contexts {:?}, history {:?}", place(&a.3, &b.3), place(&a.4, &b.4))
}
