//! Recordings for the driver `encode`: music, noise, silence and clicks, and coefficients for them.
use std::f64::consts::TAU;

/// Samples of a recording: a thousand frames, 0.44 seconds at 32,000 Hz.
pub const SAMPLES: usize = 14_000;

/// One set of pairs for recordings of any kind.
pub const USUAL: [i16; 16] = [0, 0, 2048, 0, 3680, -1664, 3120, -1104, 3780, -1820, 1024, 0, 1600, 280, 4000, -1990];

/// The next number of a sequence, in -1 to 1.
fn next(seed: &mut u64) -> f64 {
    *seed = seed.wrapping_mul(6_364_136_223_846_793_005).wrapping_add(1_442_695_040_888_963_407);
    (*seed >> 40) as f64 / (1 << 23) as f64 - 1.0
}

/// Six notes that fade, one after the other, each with five harmonics, and some noise.
pub fn music() -> Vec<i16> {
    const NOTES: [f64; 6] = [220.0, 277.2, 329.6, 440.0, 554.4, 659.3];
    let mut seed = 1;
    let at = |k: usize| {
        let mut sum = 60.0 * next(&mut seed);
        for (n, note) in NOTES.iter().enumerate() {
            let since = k as f64 - (n * SAMPLES / 8) as f64;
            if since >= 0.0 {
                let tone: f64 = (1..=5).map(|h| (TAU * note * f64::from(h) * since / 32_000.0).sin() / f64::from(h)).sum();
                sum += 5000.0 * (-since / 4000.0).exp() * tone;
            }
        }
        sum.clamp(-32768.0, 32767.0) as i16
    };
    (0..SAMPLES).map(at).collect()
}

/// Noise of the whole range.
pub fn noise() -> Vec<i16> {
    let mut seed = 2;
    (0..SAMPLES).map(|_| (32767.0 * next(&mut seed)) as i16).collect()
}

/// Silence with a click at the end of each frame, so that with coefficients of 0 no header is given up before its last sample.
pub fn clicks() -> Vec<i16> {
    (0..SAMPLES).map(|k| if k % 14 == 13 { 20001 } else { 0 }).collect()
}

/// Pairs for a recording: for each eighth of it the two that predict it best from the two samples before, by least squares.
pub fn pairs(samples: &[i16]) -> [i16; 16] {
    let mut all = [0; 16];
    for (pair, part) in all.chunks_mut(2).zip(samples.chunks(samples.len().div_ceil(8))) {
        let sum = |lag: usize| part.iter().zip(&part[lag..]).map(|(&a, &b)| f64::from(a) * f64::from(b)).sum::<f64>();
        let [a, b, c] = [sum(0), sum(1), sum(2)];
        let square = a * a - b * b;
        let fixed = |x: f64| if square > 0.0 { (2048.0 * x / square).round() as i16 } else { 0 };
        (pair[0], pair[1]) = (fixed(b * (a - c)), fixed(a * c - b * b));
    }
    all
}
