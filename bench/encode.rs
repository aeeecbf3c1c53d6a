//! The encoder through the C interface, against the same algorithm in plain Rust (fast_encoder.rs) and against one that tries every nibble
//! of every header (brute_encoder.rs): the least times of many runs, taken in turn. All three must give the same bytes, context and error.
use std::hint::black_box;
use std::time::Instant;

mod brute_encoder;
mod fast_encoder;
mod recordings;
#[path = "../bindings/rust/src/sys/mod.rs"]
mod sys;
use fast_encoder::Context;
use recordings::{SAMPLES, USUAL, clicks, music, noise, pairs};
use sys::{AdpcmContext, jeqlluna_encode_adpcm};

const BYTES: usize = SAMPLES / 14 * 8;
/// Runs of the port and of the fast one; every eighth has one of the third.
const RUNS: usize = 80;

type Output = [u8; BYTES];

/// The port's encode.
fn port(samples: &[i16], coefficients: &[i16; 16], c: Context, output: &mut Output) -> (usize, Context, u64) {
    let context = AdpcmContext { pred_scale: c.header, history0: c.last, history1: c.before };
    let r = unsafe {
        jeqlluna_encode_adpcm(samples.as_ptr(), samples.len(), coefficients.as_ptr(), 16, context, output.as_mut_ptr(), output.len())
    };
    assert_eq!(r.number, 0);
    let left = Context { header: r.context.pred_scale, last: r.context.history0, before: r.context.history1 };
    (r.size, left, r.error)
}

/// The time of a call, in nanoseconds, and what it gives.
fn time<T>(call: impl FnOnce() -> T) -> (f64, T) {
    let t = Instant::now();
    let given = call();
    (t.elapsed().as_nanos() as f64, given)
}

/// Prints the ratios, the three times for a sample and the error of a recording.
fn ratio(name: &str, samples: &[i16], coefficients: &[i16; 16]) {
    assert_eq!(samples.len(), SAMPLES);
    let none = Context::default();
    let mut outputs = [[0; BYTES]; 3];
    let [by_port, by_fast, by_brute] = &mut outputs;
    let ([mut a, mut b, mut c], mut error) = ([f64::MAX; 3], 0);
    for k in 0..RUNS {
        let (t, x) = time(|| port(black_box(samples), black_box(coefficients), none, by_port));
        a = a.min(t);
        let (t, y) = time(|| fast_encoder::encode(black_box(samples), black_box(coefficients), none, by_fast));
        b = b.min(t);
        assert_eq!(x, y, "{name}");
        error = x.2;
        if k % 8 == 0 {
            let (t, z) = time(|| brute_encoder::encode(black_box(samples), black_box(coefficients), none, by_brute));
            c = c.min(t);
            assert_eq!(x, z, "{name}");
        }
    }
    assert!(outputs[0] == outputs[1] && outputs[0] == outputs[2], "{name}: bytes differ");
    let each = |t: f64| t / 1000.0 / SAMPLES as f64;
    print!("encode_adpcm, {name}: {:.2} of plain Rust's time, {:.1} times as fast as trying all ", a / b, c / a);
    println!("({:.3}, {:.3}, {:.2} us a sample; error {error})", each(a), each(b), each(c));
}

fn main() {
    let (music, noise) = (music(), noise());
    ratio("music, usual coefficients", &music, &USUAL);
    ratio("music, coefficients made for it", &music, &pairs(&music));
    ratio("noise, usual coefficients", &noise, &USUAL);
    ratio("noise, coefficients made for it", &noise, &pairs(&noise));
    ratio("silence, usual coefficients", &[0; SAMPLES], &USUAL);
    ratio("silence, coefficients 0", &[0; SAMPLES], &[0; 16]);
    ratio("clicks at the ends of frames, coefficients 0", &clicks(), &[0; 16]);
}
