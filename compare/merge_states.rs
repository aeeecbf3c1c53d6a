//! States and pairs of blocks for the sentence on positions: titles that play, by seed.
use crate::generate::{BASE, parameters};
use crate::inputs::{Sections, cut, damage, input, put_u32};
use crate::merge_plays::merged;
use crate::plain_merge::{IDS, VOICE};
use crate::random::Random;
use crate::title::{SIZE, Title};
use crate::wrong_merges::Wrong;
use oracle::Memory;
use oracle::mixer::probe::Slices;
use oracle::renderer::Probe;

/// Parameters of titles that play, and their bytes.
pub fn desk(r: &mut Random) -> (Vec<u32>, Vec<u8>) {
    let mut p = parameters(r);
    p[0] = [48000, 48000, 32000][r.below(3) as usize];
    p[1] = [240, 160, 64, 32, 5, 256, 1][r.below(7) as usize];
    p[3] = p[3].min(4);
    p[4] = if r.below(60) == 0 { 64 } else { 1 + r.below(6) as u32 };
    p[5] = p[5].max(1);
    let mut d = r.bytes(0x34);
    for (at, &v) in [0x00, 0x04, 0x08, 0x0c, 0x10, 0x14, 0x18, 0x24, 0x28, 0x30].into_iter().zip(&p) {
        put_u32(&mut d, at, v);
    }
    (p, d)
}

/// Gives each voice and each channel to one of two titles, or to none: the others' records are not in use, and name their own.
fn apart(r: &mut Random, both: &mut [Sections; 2], n: usize) {
    let mut owner: Vec<usize> = (0..n).map(|_| r.below(3) as usize).collect();
    // Each has a channel, if there are two.
    let first = r.below(n as u64) as usize;
    owner[(first + 1) % n] = 1;
    owner[first] = 0;
    for k in 0..n {
        let whose = r.below(7) as usize % 3;
        for (side, s) in both.iter_mut().enumerate() {
            let e = &mut s.voices[k * VOICE..][..VOICE];
            let own: Vec<usize> = (0..n).filter(|&j| owner[j] == side).collect();
            if side != whose || own.is_empty() {
                e[9] = 0;
                continue;
            }
            e[9] *= [1, 1, 1 + r.below(255) as u8][r.below(3) as usize];
            for c in 0..6 {
                let j = own[r.below(own.len() as u64) as usize];
                put_u32(e, IDS + 4 * c, if j == 0 && r.below(4) == 0 { u32::MAX } else { j as u32 });
            }
        }
    }
}

/// A turn of a title and of a click, and their blocks: voices and channels apart, mostly whole.
pub fn blocks(r: &mut Random, titles: &mut [Title; 2], n: usize) -> ([Vec<u8>; 2], [bool; 2]) {
    let mut both = [0, 1].map(|k: usize| {
        titles[k].turn(r);
        titles[k].sections(r)
    });
    apart(r, &mut both, n);
    let mut damaged = [false; 2];
    let made = [0, 1].map(|k: usize| {
        let mut d = both[k].join(vec![0; 0x40]);
        damaged[k] = r.below(6) == 0;
        match r.below(8) {
            _ if !damaged[k] => {}
            0 => d.clear(),
            1 => d.truncate(1 + r.below(0x48) as usize),
            2 => d = r.bytes(12),
            3 | 4 => cut(r, &mut d),
            5 => {
                // The voices' section, or what stands before it, is said to be longer or shorter.
                let at = [0x04, 0x08, 0x0c, 0x10][r.below(4) as usize];
                let size = u32::from_le_bytes(d[at..at + 4].try_into().expect("four bytes"));
                put_u32(&mut d, at, size.wrapping_add(r.below(0x400) as u32).wrapping_sub(0x200));
            }
            6 => {
                // A record, and no more, is cut off the voices.
                let size = both[k].voices.len() - 1 - r.below(VOICE as u64 - 10) as usize;
                both[k].voices.truncate(size);
                d = both[k].join(vec![0; 0x40]);
            }
            _ => damage(r, &mut d),
        }
        d
    });
    (made, damaged)
}

/// A state made by up to eight random calls: updates of either title, of both merged, of anything; and renders.
pub fn state(r: &mut Random, p: &[u32], bytes: &[u8], titles: &mut [Title; 2]) -> (Slices, usize) {
    let (probe, n, calls) = (Probe::open(bytes), p[4] as usize, r.below(9) as usize);
    for _ in 0..calls {
        let update = match r.below(8) {
            0 => blocks(r, titles, n).0[0].clone(),
            1 => blocks(r, titles, n).0[1].clone(),
            2 | 3 => {
                let ([title, click], _) = blocks(r, titles, n);
                merged(bytes, &title, &click, Wrong::Nothing).unwrap_or(title)
            }
            4 => input(r, p, SIZE as u64).0,
            _ => {
                probe.render(&Memory { base: BASE, bytes: &titles[0].memory });
                continue;
            }
        };
        // The Rust isn't given empty updates.
        if !update.is_empty() {
            probe.update(&update, 0x1000);
        }
    }
    (probe.slices(), calls)
}
