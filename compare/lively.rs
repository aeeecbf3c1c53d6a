//! Whole states by seed for renders: of what `generate` makes, more is heard.
use crate::generate::state;
use crate::random::Random;
use oracle::mixer::probe::Slices;

/// A whole state, not only one that calls reach.
pub fn lively(r: &mut Random, len: u64) -> Slices {
    let mut s = state(r, len);
    livelier(r, &mut s);
    s
}

/// More of a random state is heard: voices in use and started, with wave buffers queued; mixes in use; room for most mix buffers; a device
/// sink that takes the final mix's first buffers.
fn livelier(r: &mut Random, s: &mut Slices) {
    let (mixes, voices, sinks) = (s.words[3] as usize + 1, s.words[4] as usize, s.words[5] as usize);
    if r.below(4) != 0 {
        s.words[2] = 24 + r.below(73) as u32;
    }
    for k in 0..voices {
        let w = &mut s.words[10 + k * 58..][..58];
        if r.below(8) != 0 {
            w[0] = 1;
            w[5] = w[5].max(1);
            w[6] = w[6].max(1);
        }
        if r.below(4) != 0 {
            w[2] = 0;
        }
        if r.below(3) != 0 {
            w[8] = 0;
        }
        if r.below(2) == 0 {
            w[10] = r.below(mixes as u64) as u32;
        }
    }
    let at = 10 + voices * 58;
    let mut offset = 0;
    for m in 0..mixes {
        let w = &mut s.words[at + m * 5..][..5];
        if r.below(3) != 0 {
            w[0] = 1;
            w[1] = 1 + r.below(6) as u32;
        }
        w[4] = offset;
        offset += w[1];
    }
    if sinks > 0 && r.below(8) != 0 {
        let w = &mut s.words[at + mixes * 5..][..10];
        w[..2].fill(1);
        for k in 0..w[2] as usize {
            w[3 + k] = r.below(5) as u32;
        }
    }
}
