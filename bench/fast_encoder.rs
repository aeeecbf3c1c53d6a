//! An ADPCM encoder in plain Rust by the port's algorithm: the nearest nibble is worked out and not tried, and a header is given up as soon
//! as its sum reaches the least so far, which begins with that of the frame before.

/// The last header, the last sample and the one before it.
#[derive(Clone, Copy, Debug, Default, PartialEq)]
pub struct Context {
    pub header: u16,
    pub last: i16,
    pub before: i16,
}

/// The number of the nibble -8 for the step 1.
const LOWEST: u32 = 2_064_384;

/// The nibble nearest to t by its rank from -8 up, the lowest of several, and its sample; samples count from -32768 up.
#[inline(always)]
fn nearest(t: u32, base: u32, scale: u32) -> (u32, u32) {
    let step = 1 << scale;
    let low = 8 * step + LOWEST;
    let sample = |rank: u32| (rank * step + base).saturating_sub(low).min(65535);
    let need = t + low;
    if need <= base {
        return (0, sample(0));
    }
    // The first rank whose sample, unclamped, reaches t.
    let reach = ((need - base + (step - 1)) >> scale).min(16);
    let below = sample(reach - 1);
    if reach < 16 {
        let above = sample(reach);
        if above - t < t - below {
            return (reach, above);
        }
    }
    (if below == 0 { 0 } else { reach - 1 }, below)
}

/// A sample's nibble by its rank, what it decodes to and how far that is off.
#[inline(always)]
fn take(sample: i16, scale: u32, c: i16, d: i16, h0: i16, h1: i16) -> (u32, i16, u32) {
    let t = (i32::from(sample) + 32768) as u32;
    let sum = i64::from(c) * i64::from(h0) + i64::from(d) * i64::from(h1) + 0x1_0000_0400;
    let (rank, made) = nearest(t, (sum as u64 / 2048) as u32, scale);
    (rank, (made as i32 - 32768) as i16, made.abs_diff(t))
}

/// The scale and the pair of a header.
fn pair(header: u8, coefficients: &[i16; 16]) -> (u32, i16, i16) {
    let p = usize::from(header / 16 % 8 * 2);
    (u32::from(header % 16), coefficients[p], coefficients[p + 1])
}

/// The sum of squared differences with a header, or the limit where it reaches that.
fn attempt(samples: &[i16], header: u8, coefficients: &[i16; 16], from: (i16, i16), limit: u64) -> u64 {
    let (scale, c, d) = pair(header, coefficients);
    let ((mut h0, mut h1), mut sum) = (from, 0);
    for &sample in samples {
        if sum >= limit {
            return limit;
        }
        let (_, made, away) = take(sample, scale, c, d, h0, h1);
        sum += u64::from(away) * u64::from(away);
        (h0, h1) = (made, h0);
    }
    sum.min(limit)
}

/// The header whose sum is the least, the lowest of several, and its sum.
fn keep(samples: &[i16], coefficients: &[i16; 16], from: (i16, i16), carried: u8) -> (u8, u64) {
    let (mut kept, mut least) = (0, attempt(samples, carried, coefficients, from, 1 << 40) + 1);
    for header in 0..128 {
        let sum = attempt(samples, header, coefficients, from, least);
        if sum < least {
            (kept, least) = (header, sum);
        }
    }
    (kept, least)
}

/// Encodes samples to the front of the output, which has room for them: the bytes written, the context then, and the error.
pub fn encode(samples: &[i16], coefficients: &[i16; 16], mut context: Context, output: &mut [u8]) -> (usize, Context, u64) {
    let (mut size, mut error) = (0, 0u64);
    for frame in samples.chunks(14) {
        let (header, sum) = keep(frame, coefficients, (context.last, context.before), (context.header % 128) as u8);
        let (scale, c, d) = pair(header, coefficients);
        let out = &mut output[size..size + 1 + frame.len().div_ceil(2)];
        out[0] = header;
        context.header = header.into();
        for (byte, two) in out[1..].iter_mut().zip(frame.chunks(2)) {
            let mut nibbles = [0; 2];
            for (nibble, &sample) in nibbles.iter_mut().zip(two) {
                let (rank, made, _) = take(sample, scale, c, d, context.last, context.before);
                *nibble = (rank + 8) as u8 % 16;
                (context.last, context.before) = (made, context.last);
            }
            *byte = nibbles[0] << 4 | nibbles[1];
        }
        size += out.len();
        error = error.saturating_add(sum);
    }
    (size, context, error)
}
