//! Holds the encoder, through the C interface, to one in plain Rust that tries every nibble of every header (plain_encoder.rs), since
//! kirikae has none: number, size, context, error and every byte of the output, beyond the frames and after a refusal too. kirikae's
//! `decode_adpcm`, and the port's, must decode the output to the samples that the plain encoder made, and leave the same context.
//!
//! `encode [SEED [COUNT]]`: every count of samples 0 to 60 and around further ends of frames, every header, coefficient slices of every
//! length 0 to 20, errors as large as they get, long recordings, and COUNT calls of all kinds of signal, coefficients, context and output.
//! It fails where a kind of case was never reached.
//! `encode wrong`: the same with one error in the plain encoder, for many of them: each must be noticed.
mod encode_cases;
mod encode_tally;
mod plain_encoder;
#[allow(dead_code)]
mod random;
mod signals;
#[allow(dead_code)]
#[path = "../bindings/rust/src/sys/mod.rs"]
mod sys;
mod wrong_encoders;
use encode_tally::Tally;
use oracle::dsp;
use plain_encoder::{Call, Context, FRAME, sixteen, size};
use random::Random;
use std::time::Instant;
use sys::{AdpcmContext, Encoded, jeqlluna_decode_adpcm, jeqlluna_encode_adpcm};
use wrong_encoders::{WRONG, Wrong};

/// What an output holds before a call.
pub const MARK: u8 = 0xa5;

/// The context as the port takes it, and back.
fn lent(c: Context) -> AdpcmContext {
    AdpcmContext { pred_scale: c.header, history0: c.last, history1: c.before }
}

fn left(c: AdpcmContext) -> Context {
    Context { header: c.pred_scale, last: c.history0, before: c.history1 }
}

/// The port's encoder, to an output.
fn port(samples: &[i16], coefficients: &[i16], context: Context, output: &mut [u8]) -> Encoded {
    unsafe {
        jeqlluna_encode_adpcm(
            samples.as_ptr(), samples.len(), coefficients.as_ptr(), coefficients.len(), lent(context), output.as_mut_ptr(), output.len(),
        )
    }
}

/// What the port's decoder gives for so many samples: these, and the context then.
fn port_decodes(data: &[u8], count: usize, coefficients: &[i16], context: Context) -> (Vec<f32>, Context) {
    let mut out = vec![0.0; count];
    let r = unsafe {
        jeqlluna_decode_adpcm(
            data.as_ptr(), data.len(), 0, count, coefficients.as_ptr(), coefficients.len(), lent(context), out.as_mut_ptr(), count,
        )
    };
    out.truncate(r.done);
    (out, left(r.context))
}

/// What kirikae's decoder gives.
fn rust_decodes(data: &[u8], count: usize, coefficients: &[i16], c: Context) -> (Vec<f32>, Context) {
    let mut context = dsp::AdpcmContext { pred_scale: c.header, history0: c.last, history1: c.before };
    let mut out = vec![];
    dsp::decode_adpcm(data, 0, count, &sixteen(coefficients, Wrong::Nothing), &mut context, &mut out);
    (out, Context { header: context.pred_scale, last: context.history0, before: context.history1 })
}

/// One run: what is wrong in the plain encoder, and what was counted.
pub struct Run {
    wrong: Wrong,
    pub tally: Tally,
}

impl Run {
    /// Counts a comparison, and reports it if it isn't as it should be.
    fn count(&mut self, right: bool, what: impl FnOnce() -> String) {
        self.tally.compared += 1;
        if !right {
            self.tally.differ += 1;
            if self.tally.differ < 6 && self.wrong == Wrong::Nothing {
                println!("differs: {}", what());
            }
        }
    }

    /// Whether the run may end: a wrong variant was noticed.
    pub fn over(&self) -> bool {
        self.wrong != Wrong::Nothing && self.tally.differ != 0
    }

    /// One call with an output of so many bytes.
    pub fn call(&mut self, samples: &[i16], coefficients: &[i16], context: Context, room: usize) {
        let before = vec![MARK; room];
        let mut output = before.clone();
        let r = port(samples, coefficients, context, &mut output);
        let call = Call { samples, coefficients, context, output: &before };
        let due = plain_encoder::encode(&call, self.wrong);
        let same = (r.number, r.size, left(r.context), r.error) == (due.number, due.size, due.context, due.error);
        self.count(same && output == due.output, || {
            let (answer, bytes) = ((due.number, due.size, due.context, due.error), &due.output);
            let given = format!("{samples:?} with {coefficients:?} from {context:?} to {room}");
            format!("{given}: {r:?}, due {answer:?}\n  {output:02x?}\n  {bytes:02x?}")
        });
        if self.wrong == Wrong::Nothing {
            self.tally.call(&call, &due);
        }
        if (r.number, due.number) == (0, 0) && r.size <= room {
            let made: Vec<f32> = due.frames.iter().flat_map(|f| &f.made).map(|&m| m as f32).collect();
            let expected = (made, left(r.context));
            let data = &output[..r.size];
            let right = rust_decodes(data, samples.len(), coefficients, context) == expected
                && port_decodes(data, samples.len(), coefficients, context) == expected;
            self.count(right, || format!("decoded again: {samples:?} with {coefficients:?} from {context:?}: {data:02x?}"));
        }
    }

    /// The port's encode of all samples, and of the same in two calls, the first of so many whole frames.
    pub fn parts(&mut self, samples: &[i16], coefficients: &[i16], context: Context, frames: usize) {
        let (mut whole, mut parts) = (vec![MARK; size(samples.len())], vec![MARK; size(samples.len())]);
        let all = port(samples, coefficients, context, &mut whole);
        let (first, second) = samples.split_at(frames * FRAME);
        let a = port(first, coefficients, context, &mut parts);
        let b = port(second, coefficients, left(a.context), &mut parts[frames * 8..]);
        let sums = (a.size + b.size, b.context, a.error + b.error) == (all.size, all.context, all.error);
        let right = sums && [a.number, b.number, all.number] == [0; 3] && whole == parts;
        self.count(right, || format!("{samples:?} with {coefficients:?} from {context:?}, and in two: {all:?}, {a:?}, {b:?}"));
        self.tally.hit("calls in two parts, the second from the first's context");
    }
}

/// A run over all kinds of case; with a wrong variant up to the kind that notices it.
fn run(wrong: Wrong, seed: u64, count: u64) -> Tally {
    let r = &mut Random(seed);
    let mut run = Run { wrong, tally: Tally::new() };
    for cases in encode_cases::ALL {
        if !run.over() {
            cases(&mut run, r, count);
        }
    }
    run.tally
}

/// Each wrong variant in turn.
fn wrong() -> bool {
    let (mut noticed, mut missed) = (0, 0);
    for wrong in WRONG {
        let tally = run(wrong, 1, 20_000);
        let found = tally.differ != 0;
        println!("{}: {wrong:?} ({} comparisons)", if found { "noticed" } else { "MISSED" }, tally.compared);
        (noticed, missed) = (noticed + u64::from(found), missed + u64::from(!found));
    }
    println!("{noticed} noticed, {missed} missed");
    missed == 0
}

fn main() {
    let args: Vec<String> = std::env::args().skip(1).collect();
    if args.first().is_some_and(|a| a == "wrong") {
        std::process::exit(i32::from(!wrong()));
    }
    let number = |k: usize, d| args.get(k).map_or(d, |a| a.parse().expect("a number"));
    let (seed, count, start) = (number(0, 1), number(1, 100_000), Instant::now());
    let tally = run(Wrong::Nothing, seed, count);
    let missing = tally.print();
    println!("seed {seed}, {} seconds", start.elapsed().as_secs());
    println!("{} compared, {} differ", tally.compared, tally.differ);
    std::process::exit(i32::from(tally.differ != 0 || missing));
}
