//! The decoder and the resampler against kirikae's. Both write into a buffer that is there already: the Rust's `Vec` has room.
//! What a resample gives must be what the Rust with document 02's rules (`rules`) gives.
use oracle::dsp;
use std::hint::black_box;
use std::time::Instant;

#[path = "../compare/probed.rs"]
mod probed;
use probed::ProbeDecoded;

unsafe extern "C" {
    fn probe_decode_adpcm(
        data: *const u8, data_len: usize, start: u64, count: usize, coefficients: *const i16, pred_scale: u16, history0: i16,
        history1: i16, out: *mut f32, out_len: usize,
    ) -> ProbeDecoded;
    fn probe_resample(
        input: *const f32, input_len: usize, out: *mut f32, out_len: usize, count: u32, ratio: f32, fraction: f32,
    ) -> f32;
}

/// Calls in a run.
const CALLS: usize = 50;

/// The time of a call in a run of many, in nanoseconds.
fn time(mut call: impl FnMut()) -> f64 {
    let t = Instant::now();
    (0..CALLS).for_each(|_| call());
    t.elapsed().as_secs_f64() * 1e9 / CALLS as f64
}

/// The least time of many runs of both, taken in turn, as port over Rust.
fn ratio(name: &str, mut port: impl FnMut(), mut rust: impl FnMut()) {
    let (mut a, mut b) = (f64::MAX, f64::MAX);
    for _ in 0..400 {
        a = a.min(time(&mut port));
        b = b.min(time(&mut rust));
    }
    println!("{name}: {:.2} of the Rust's time ({a:.0} ns, {b:.0} ns)", a / b);
}

type Outputs = [f32; 240];

/// What a resample gives: the next fraction and the outputs.
fn given(resample: impl Fn(&mut Outputs) -> f32) -> (u32, [u32; 240]) {
    let mut out = [0.0; 240];
    (resample(&mut out).to_bits(), out.map(f32::to_bits))
}

/// The Rust's resample. Of three inputs it has no answer: it is handed the fourth point that document 02 gives.
fn resample(input: &[f32], out: &mut [f32], ratio: f32, fraction: f32) -> f32 {
    match *input {
        [a, b, c] => dsp::resample(&[a, b, c, 2.0 * c - b], out, ratio, fraction),
        _ => dsp::resample(input, out, ratio, fraction),
    }
}

fn main() {
    let data: Vec<u8> = (0..200u32).map(|k| (k.wrapping_mul(2654435761) >> 24) as u8 & if k % 8 == 0 { 0x73 } else { 0xff }).collect();
    let coefficients: [i16; 16] = std::array::from_fn(|k| (k as i16 * 700) - 3000);
    let mut out = vec![0.0f32; 240];
    let mut into = Vec::with_capacity(240);
    ratio(
        "decode_adpcm, 240 samples",
        || unsafe {
            let r = probe_decode_adpcm(black_box(data.as_ptr()), data.len(), 0, 240, coefficients.as_ptr(), 0, 0, 0, out.as_mut_ptr(), 240);
            black_box(r.done);
        },
        || {
            into.clear();
            let mut c = dsp::AdpcmContext::default();
            black_box(dsp::decode_adpcm(black_box(&data), 0, 240, &coefficients, &mut c, &mut into));
        },
    );
    let mut three = 0;
    for (r, f) in [(1.0f32, 0.0f32), (1.0, 0.25), (1.0884354, 0.3), (0.5, 0.0), (2.0, 0.0), (0.003, 0.2)] {
        let inputs = dsp::needed(f, r, 240) + 3;
        three += usize::from(inputs == 3);
        let input: Vec<f32> = (0..inputs).map(|k| ((k * 7919) % 65536) as f32 - 32768.0).collect();
        let port = |out: &mut Outputs| unsafe {
            probe_resample(black_box(input.as_ptr()), input.len(), out.as_mut_ptr(), out.len(), 240, r, f)
        };
        let rust = |out: &mut Outputs| resample(black_box(&input), out, r, f);
        let judge = given(|out| rules::dsp::resample(&input, out, r, f));
        let name = format!("resample, {inputs} inputs, 240 outputs, ratio {r}, fraction {f}");
        assert!(given(port) == judge && given(rust) == judge, "{name}: outputs or next fractions differ");
        let (mut x, mut y) = ([0.0; 240], [0.0; 240]);
        ratio(&name, || _ = black_box(port(black_box(&mut x))), || _ = black_box(rust(black_box(&mut y))));
    }
    assert_eq!(three, 1, "resamples of three inputs");
}
