//! An ADPCM encoder in plain Rust that tries all sixteen nibbles of all 128 headers.
use crate::fast_encoder::Context;

/// The sample of a nibble.
#[inline(always)]
fn decode(nibble: i64, scale: u32, prediction: i64) -> i64 {
    (((nibble << (11 + scale)) + prediction + 1024) >> 11).clamp(-32768, 32767)
}

/// A frame's nibbles with a header, the two samples then, and the sum of squared differences.
fn attempt(samples: &[i16], header: u8, coefficients: &[i16; 16], from: (i64, i64)) -> ([u8; 14], (i64, i64), u64) {
    let (scale, p) = (u32::from(header % 16), usize::from(header / 16 * 2));
    let (c, d) = (i64::from(coefficients[p]), i64::from(coefficients[p + 1]));
    let ((mut h0, mut h1), mut nibbles, mut sum) = (from, [0; 14], 0);
    for (kept, &sample) in nibbles.iter_mut().zip(samples) {
        let prediction = c * h0 + d * h1;
        let (mut least, mut made) = (u64::MAX, 0);
        for nibble in -8..8 {
            let x = decode(nibble, scale, prediction);
            let away = x.abs_diff(sample.into());
            if away < least {
                (least, made, *kept) = (away, x, nibble as u8 & 15);
            }
        }
        sum += least * least;
        (h0, h1) = (made, h0);
    }
    (nibbles, (h0, h1), sum)
}

/// Encodes samples to the front of the output, which has room for them: the bytes written, the context then, and the error.
pub fn encode(samples: &[i16], coefficients: &[i16; 16], mut context: Context, output: &mut [u8]) -> (usize, Context, u64) {
    let (mut size, mut error) = (0, 0u64);
    for frame in samples.chunks(14) {
        let from = (context.last.into(), context.before.into());
        let (mut kept, mut best) = (0, attempt(frame, 0, coefficients, from));
        for header in 1..128 {
            let trial = attempt(frame, header, coefficients, from);
            if trial.2 < best.2 {
                (kept, best) = (header, trial);
            }
        }
        let (nibbles, (last, before), sum) = best;
        context = Context { header: kept.into(), last: last as i16, before: before as i16 };
        output[size] = kept;
        for (byte, two) in output[size + 1..].iter_mut().zip(nibbles[..frame.len()].chunks(2)) {
            *byte = two[0] << 4 | two.get(1).unwrap_or(&0);
        }
        size += 1 + frame.len().div_ceil(2);
        error = error.saturating_add(sum);
    }
    (size, context, error)
}
