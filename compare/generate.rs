//! Rows by seed: a voice's, and those of whole states.
use crate::random::Random;
use oracle::mixer::probe::{FLOATS, LONGS, Rows, Slices, WORDS};

pub const BASE: u64 = 0x10000;

/// Places among a voice's words.
pub const PLAY: usize = 2;
pub const BASE_INDEX: usize = 7;
pub const FLUSH: usize = 8;
pub const INDEX: usize = 22;
pub const CONSUMED: usize = 23;

/// A counter: mostly small, sometimes near its limit.
pub fn counter(r: &mut Random) -> u64 {
    match r.below(4) {
        0 => u64::MAX - r.below(4),
        1 => u64::from(u32::MAX) - r.below(4),
        2 => 0x8000_0000 - 2 + r.below(4),
        _ => r.below(8),
    }
}

/// An address: mostly in memory, sometimes before or after it, sometimes so far that a sum with a place goes round.
pub fn address(r: &mut Random, len: u64) -> u64 {
    match r.below(12) {
        0 => BASE.wrapping_sub(r.below(64)),
        1 => u64::MAX - r.below(64),
        2 => BASE.wrapping_sub(24 * r.below(1 << 32)),
        3 => r.next(),
        _ => BASE + r.below(len + 1),
    }
}

pub fn flag(r: &mut Random) -> u32 {
    r.below(2) as u32
}

/// A voice's rows, whole but for what depends on the rest of the state.
pub fn rows(r: &mut Random, len: u64, flush: u32) -> Rows {
    let mut words = vec![0u32; WORDS];
    let mut longs = vec![0u64; LONGS];
    words[0] = flag(r);
    words[1] = flag(r);
    words[PLAY] = r.below(4) as u32;
    words[3] = [2, 5, 6, 6, 2, 0, 9][r.below(7) as usize];
    words[4] = r.next() as u32;
    words[5] = 1 + r.below(6) as u32;
    words[6] = r.below(5) as u32;
    words[BASE_INDEX] = r.below(4) as u32;
    words[FLUSH] = flush;
    words[9] = r.below(1 << 16) as u32;
    words[10] = r.next() as u32;
    words[11] = r.next() as u32;
    for k in 12..18 {
        words[k] = r.below(64) as u32;
    }
    for k in 18..22 {
        words[k] = u32::from(r.below(4) != 0);
    }
    words[INDEX] = r.below(4) as u32;
    words[CONSUMED] = counter(r) as u32;
    words[24] = if r.below(3) == 0 { r.below(20) as u32 } else if r.below(8) == 0 { r.next() as u32 } else { 0 };
    words[25] = counter(r) as u32;
    longs[0] = address(r, len);
    longs[1] = counter(r);
    for b in 0..4 {
        let (w, l) = (26 + b * 8, 2 + b * 3);
        let short = |r: &mut Random| if r.below(16) == 0 { r.next() as u32 } else { r.below(50) as u32 };
        words[w] = short(r);
        words[w + 1] = words[w].wrapping_add(short(r));
        words[w + 2] = flag(r);
        words[w + 3] = flag(r);
        words[w + 4] = counter(r) as u32;
        words[w + 5] = short(r);
        words[w + 6] = short(r);
        words[w + 7] = flag(r);
        longs[l] = address(r, len);
        longs[l + 1] = if r.below(8) == 0 { r.next() } else { r.below(512) };
        longs[l + 2] = if r.below(3) == 0 { 0 } else { address(r, len) };
        if r.below(16) == 0 {
            // So far before memory that the sum with the first sample's place goes round and lands in it.
            let frame = if words[3] == 5 { 4 } else { 2 } * u64::from(words[5]);
            words[w] = r.next() as u32 | 0x8000_0000;
            words[w + 1] = words[w].saturating_add(r.below(50) as u32);
            longs[l] = (BASE + r.below(len + 1)).wrapping_sub(u64::from(words[w]) * frame);
            longs[l + 1] = 1 << 62;
        }
    }
    let floats = (0..FLOATS).map(|k| if k == 3 { r.below(1 << 24) as f32 / (1 << 24) as f32 } else { r.float() }).collect();
    let context = (0..3).map(|_| r.next() as u16).collect();
    let history = (0..18).map(|_| r.float()).collect();
    Rows { words, longs, floats, context, history }
}

/// A count: mostly small, sometimes the most that is allowed.
fn count(r: &mut Random, small: u64, most: u64) -> u32 {
    (if r.below(24) == 0 { most } else { r.below(small + 1) }) as u32
}

/// Parameters that are allowed: every revision from 0 to 11, and the word 0.
pub fn parameters(r: &mut Random) -> Vec<u32> {
    let revision = if r.below(12) == 0 { 0 } else { 0x0056_4552 | ((0x30 + r.below(12) as u32) << 24) };
    vec![
        [48000, 32000, 0, 1, 44100][r.below(5) as usize],
        [1, 2, 5, 16, 64, 240, 256][r.below(7) as usize],
        count(r, 12, 96),
        count(r, 4, 31),
        count(r, 5, 64),
        count(r, 3, 8),
        count(r, 4, 64),
        count(r, 4, 32),
        count(r, 6, 128),
        revision,
    ]
}

/// A mix number: one of those there are, none, or any.
pub fn mix_number(r: &mut Random, mixes: u64) -> u32 {
    match r.below(8) {
        0 => 0x7fff_ffff,
        1 => r.next() as u32,
        2 => mixes as u32,
        _ => r.below(mixes) as u32,
    }
}

pub fn splitter_number(r: &mut Random, splitters: u64) -> u32 {
    match r.below(6) {
        0 => 0xffff_ffff,
        1 => r.next() as u32,
        _ => r.below(splitters + 1) as u32,
    }
}

/// A gain: often 0, 1 or a small one, sometimes any float.
pub fn gain(r: &mut Random) -> f32 {
    match r.below(5) {
        0 => 0.0,
        1 => 1.0,
        2 => r.below(64) as f32 / 64.0,
        3 => -0.5,
        _ => r.float(),
    }
}

/// A whole state, not only one that calls reach.
pub fn state(r: &mut Random, len: u64) -> Slices {
    let p = parameters(r);
    let (mixes, voices, sinks, splitters, destinations) = (u64::from(p[3]) + 1, p[4], p[5], u64::from(p[7]), u64::from(p[8]));
    let mut s = Slices { words: p, longs: vec![counter(r)], floats: vec![], contexts: vec![], history: vec![] };
    for _ in 0..voices {
        let flush = r.below(7) as u32;
        let mut v = rows(r, len, flush);
        if v.words[0] == 0 && r.below(2) == 0 {
            v.words[5] = 0;
        }
        v.words[9] = r.below(4) as u32;
        v.words[10] = mix_number(r, mixes);
        v.words[11] = splitter_number(r, splitters);
        for k in 12..18 {
            v.words[k] = r.below(u64::from(voices)) as u32;
        }
        v.floats[0] = if r.below(3) == 0 { r.float() } else { r.below(200) as f32 / 64.0 };
        v.floats[1] = gain(r);
        v.floats[2] = gain(r);
        s.words.extend(v.words);
        s.longs.extend(v.longs);
        s.floats.extend(v.floats);
        s.contexts.extend(v.context);
        s.history.extend(v.history);
    }
    for _ in 0..voices * 48 {
        s.floats.push(gain(r));
    }
    let mut offset = 0;
    for _ in 0..mixes {
        let buffers = count(r, 4, 24);
        let destination = if r.below(3) == 0 { 0x7fff_ffff } else { mix_number(r, mixes) };
        s.words.extend([u32::from(r.below(5) != 0), buffers, destination, splitter_number(r, splitters), offset]);
        offset += buffers;
        s.floats.push(gain(r));
        for _ in 0..576 {
            s.floats.push(gain(r));
        }
    }
    for _ in 0..sinks {
        let inputs = [0, 1, 2, 3, 5, 6, 6][r.below(7) as usize];
        s.words.extend([flag(r), flag(r), inputs as u32]);
        s.words.extend((0..6).map(|k| if k < inputs { r.below(12) as u32 } else { 0 }));
        let given = flag(r);
        s.words.push(given);
        s.floats.extend((0..4).map(|_| if given == 1 { gain(r) } else { 0.0 }));
    }
    for _ in 0..splitters {
        let n = r.below(destinations + 1);
        s.words.push(n as u32);
        s.words.extend((0..128).map(|k| if k < n { r.below(destinations + 2) as u32 } else { 0 }));
    }
    for _ in 0..destinations {
        s.words.extend([u32::from(r.below(4) != 0), mix_number(r, mixes)]);
        for _ in 0..48 {
            s.floats.push(gain(r));
        }
    }
    s
}
