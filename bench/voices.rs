//! The state of a title by its rows: voices that loop, four stereo sub-mixes, a final mix and a stereo sink.
use crate::generate::BASE;
use oracle::mixer::probe::Slices;

pub const MIXES: usize = 5;
pub const SAMPLES: usize = 240;

/// What a voice plays over and over: format (2 PCM16, 6 ADPCM with its coefficients at the base), channels and rate; the address and the
/// bytes of the wave, its samples, and the address of its context, or 0.
pub struct Sound {
    pub format: u32,
    pub channels: u32,
    pub rate: u32,
    pub address: u64,
    pub size: u64,
    pub samples: u32,
    pub context: u64,
}

/// The state of a title with these voices, in use or not.
pub fn state(sounds: &[Sound], in_use: bool) -> Slices {
    let (voices, revision) = (sounds.len(), u32::from_le_bytes(*b"REV8"));
    let mut s = Slices {
        words: vec![48000, SAMPLES as u32, 2 * MIXES as u32, MIXES as u32 - 1, voices as u32, 1, 0, 0, 0, revision],
        longs: vec![0],
        floats: vec![],
        contexts: vec![0; voices * 3],
        history: vec![0.0; voices * 18],
    };
    for (v, sound) in sounds.iter().enumerate() {
        let mut w = [0u32; 58];
        let mut l = [0u64; 14];
        w[0] = u32::from(in_use);
        (w[3], w[4], w[5]) = (sound.format, sound.rate, sound.channels);
        w[6] = 1;
        w[10] = (v % MIXES) as u32;
        w[11] = u32::MAX;
        w[12] = v as u32;
        w[13] = ((v + 1) % voices) as u32;
        w[18] = 1;
        w[27] = sound.samples;
        w[28] = 1;
        w[30] = u32::MAX;
        (l[0], l[2], l[3], l[4]) = (BASE, sound.address, sound.size, sound.context);
        s.words.extend(w);
        s.longs.extend(l);
        s.floats.extend([1.0, 0.75, 0.75, 0.0]);
    }
    for _ in 0..voices {
        s.floats.extend((0..48).map(|k| if k % 24 < 2 { 0.5 } else { 0.0 }));
    }
    for m in 0..MIXES {
        s.words.extend([1, 2, if m == 0 { 0x7fff_ffff } else { 0 }, u32::MAX, 2 * m as u32]);
        s.floats.push(if m == 0 { 1.0 } else { 0.9 });
        s.floats.extend((0..576).map(|k| if k == 0 || k == 25 { 1.0 } else { 0.0 }));
    }
    s.words.extend([1, 1, 2, 0, 1, 0, 0, 0, 0, 0]);
    s.floats.extend([0.0; 4]);
    s
}

/// Sample memory by seed with ADPCM coefficients at its front.
pub fn memory(r: &mut crate::random::Random, bytes: usize) -> Vec<u8> {
    let mut memory = r.bytes(bytes);
    for (k, c) in [0i16, 0, 2048, 0, 0, 1024, 1024, 512, 3000, -1200, 1536, 256, 1024, -256, 512, 0].into_iter().enumerate() {
        memory[k * 2..][..2].copy_from_slice(&c.to_le_bytes());
    }
    memory
}
