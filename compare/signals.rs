//! Signals, coefficients and contexts for the driver `encode`.
use crate::plain_encoder::{Context, FRAME, choices, sixteen};
use crate::random::Random;
use crate::wrong_encoders::Wrong;

/// One set of pairs for recordings of any kind.
pub const USUAL: [i16; 16] = [0, 0, 2048, 0, 3680, -1664, 3120, -1104, 3780, -1820, 1024, 0, 1600, 280, 4000, -1990];

/// An end of 16 bits, or a number next to it.
fn end(r: &mut Random) -> i16 {
    [i16::MIN, i16::MAX, -32767, 32766][r.below(4) as usize]
}

/// A slice of so many coefficients, of one of several kinds.
pub fn coefficients(r: &mut Random, count: usize) -> Vec<i16> {
    let pair = [r.word(), r.word()];
    let kind = r.below(8);
    let one = |k: usize, r: &mut Random| match kind {
        0 => 0,
        1 => pair[k % 2],
        2 => end(r),
        3 => [-4096, -2048, 0, 2048, 4096][r.below(5) as usize],
        4 => r.below(8192) as i16 - 4096,
        5 => r.word(),
        // The first four pairs again.
        6 => USUAL[k % 8],
        _ => USUAL[k % 16],
    };
    (0..count).map(|k| one(k, r)).collect()
}

/// A context: any header, or one that frames have; any histories, none, or those at the ends of 16 bits.
pub fn context(r: &mut Random) -> Context {
    let header = if r.below(2) == 0 { r.next() as u16 } else { r.below(128) as u16 };
    let (last, before) = match r.below(4) {
        0 => (0, 0),
        1 => (end(r), end(r)),
        _ => (r.word(), r.word()),
    };
    Context { header, last, before }
}

/// What a decoder makes of so many random nibbles: with one header for all frames, or another for each.
pub fn made(r: &mut Random, count: usize, coefficients: &[i16], context: Context, header: Option<u8>) -> Vec<i16> {
    let pairs = sixteen(coefficients, Wrong::Nothing);
    let (mut from, mut now) = ((context.last.into(), context.before.into()), 0);
    let sample = |k: usize| {
        if k % FRAME == 0 {
            now = header.unwrap_or(r.below(128) as u8);
        }
        let made = choices(now, &pairs, from)[r.below(16) as usize];
        from = (made, from.0);
        made as i16
    };
    (0..count).map(sample).collect()
}

/// Notes that fade, with some noise.
fn music(r: &mut Random, count: usize) -> Vec<i16> {
    let notes: Vec<[f64; 3]> = (0..3).map(|_| [r.below(300) as f64 / 1000.0, r.below(12000) as f64, r.below(628) as f64 / 100.0]).collect();
    let fade = 1.0 / (20 + r.below(400)) as f64;
    let at = |k: usize, r: &mut Random| {
        let sum: f64 = notes.iter().map(|[step, loud, phase]| loud * (step * k as f64 + phase).sin()).sum();
        (sum * (-fade * k as f64).exp()) as i16 + r.below(41) as i16 - 20
    };
    (0..count).map(|k| at(k, r)).collect()
}

/// A signal of so many samples, of one of many kinds; `coefficients` and `context` are those that it will be encoded with.
pub fn signal(r: &mut Random, count: usize, coefficients: &[i16], context: Context) -> Vec<i16> {
    let (level, step) = (r.word(), r.below(4001) as i64 - 2000);
    let width = 1 << r.below(17);
    match r.below(14) {
        0 => vec![0; count],
        1 => vec![level; count],
        2 => (0..count).map(|_| [i16::MIN, i16::MAX][r.below(2) as usize]).collect(),
        3 => (0..count).map(|k| [i16::MIN, i16::MAX][k / (width % 9 + 1) % 2]).collect(),
        4 => vec![end(r); count],
        5 => (0..count).map(|_| r.next() as i16).collect(),
        6 => (0..count).map(|_| (r.below(width as u64) as i64 - width as i64 / 2) as i16).collect(),
        7 => (0..count).map(|k| (i64::from(level) + step * k as i64).clamp(-32768, 32767) as i16).collect(),
        8 => (0..count).map(|_| if r.below(9) == 0 { level } else { 0 }).collect(),
        9 | 10 => music(r, count),
        11 => made(r, count, coefficients, context, None).iter().map(|s| s.saturating_add(r.below(5) as i16 - 2)).collect(),
        _ => made(r, count, coefficients, context, None),
    }
}
