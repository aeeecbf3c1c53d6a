//! Holds `adpcm`, `resample` and `floats` to kirikae's dsp.rs; the outputs of a resample of three inputs, where the Rust has no answer, to
//! the Rust with document 02's rules.
//!
//! `dsp [SEED [COUNT]]` compares; COUNT is the number of random ADPCM calls and of resamples beyond the exhaustive ones. It fails where no
//! resample of three inputs was reached.
//! `dsp store STDIN STDOUT` writes cases and the oracle's answers for the program replay_main.
mod probed;
mod random;
mod resamples;
use oracle::dsp;
use probed::{ProbeContext, ProbeDecoded};
use random::{Random, bits};
use resamples::{Resample, Resampled};

unsafe extern "C" {
    fn probe_decode_adpcm(
        data: *const u8, data_len: usize, start: u64, count: usize, coefficients: *const i16, pred_scale: u16, history0: i16,
        history1: i16, out: *mut f32, out_len: usize,
    ) -> ProbeDecoded;
    fn probe_parse(data: *const u8, data_len: usize) -> ProbeContext;
    fn probe_adpcm_size(samples: u64) -> u64;
    fn probe_from_bits(b: u32) -> f32;
    fn probe_to_bits(x: f32) -> u32;
    fn probe_as_usize(x: f32) -> u64;
    fn probe_floor(x: f32) -> f32;
    fn probe_min(a: f32, b: f32) -> f32;
    fn probe_clamp(x: f32, low: f32, high: f32) -> f32;
    fn probe_is_finite(x: f32) -> u32;
    fn probe_clamp_ratio(x: f32) -> f32;
}

/// What lies in an output slice before a call. No decoded sample equals it.
const FILL: f32 = 0.25;
const FAR: u64 = 1 << 60;

struct Adpcm {
    data: Vec<u8>,
    start: u64,
    count: usize,
    coefficients: [i16; 16],
    context: dsp::AdpcmContext,
    room: usize,
}

/// Number, count, context and the output's bits.
#[derive(PartialEq, Debug)]
struct Decoded(u32, u64, u16, i16, i16, Vec<u32>);

impl Adpcm {
    fn random(r: &mut Random, len: usize, start: u64, count: usize) -> Adpcm {
        let mut coefficients = [0; 16];
        for c in &mut coefficients {
            *c = r.word();
        }
        // A context's header may be any 16 bits, though a frame's header has eight.
        let context = dsp::AdpcmContext { pred_scale: r.next() as u16, history0: r.word(), history1: r.word() };
        let room = if r.below(16) == 0 { r.below(count as u64 + 1) as usize } else { count + r.below(4) as usize };
        Adpcm { data: r.bytes(len), start, count, coefficients, context, room }
    }

    /// The questions of the call for ADPCM alone are those of docs/QUESTIONS.md; what follows them is the Rust.
    fn oracle(&self) -> Decoded {
        let refused = |n| Decoded(n, 0, 0, 0, 0, vec![bits(FILL); self.room]);
        if self.start > FAR {
            return refused(8);
        }
        if self.room < self.count {
            return refused(9);
        }
        let (mut context, mut out) = (self.context, Vec::new());
        let done = dsp::decode_adpcm(&self.data, self.start, self.count, &self.coefficients, &mut context, &mut out);
        out.resize(self.room, FILL);
        Decoded(0, done as u64, context.pred_scale, context.history0, context.history1, out.iter().map(|&x| bits(x)).collect())
    }

    fn port(&self) -> Decoded {
        let mut out = vec![FILL; self.room];
        let c = self.context;
        let r = unsafe {
            probe_decode_adpcm(
                self.data.as_ptr(), self.data.len(), self.start, self.count, self.coefficients.as_ptr(), c.pred_scale, c.history0,
                c.history1, out.as_mut_ptr(), out.len(),
            )
        };
        Decoded(r.number, r.done, r.pred_scale, r.history0, r.history1, out.iter().map(|&x| bits(x)).collect())
    }

    fn store(&self, to: &mut Vec<u8>) {
        to.push(1);
        to.extend(self.start.to_le_bytes());
        for n in [self.count, self.room, self.data.len()] {
            to.extend((n as u32).to_le_bytes());
        }
        for c in self.coefficients {
            to.extend(c.to_le_bytes());
        }
        to.extend(self.context.pred_scale.to_le_bytes());
        to.extend(self.context.history0.to_le_bytes());
        to.extend(self.context.history1.to_le_bytes());
        to.extend(&self.data);
    }
}

#[derive(Default)]
struct Tally {
    compared: u64,
    differ: u64,
}

impl Tally {
    fn hold<T: PartialEq + std::fmt::Debug>(&mut self, what: impl Fn() -> String, port: T, oracle: T) {
        self.compared += 1;
        if port != oracle {
            self.differ += 1;
            if self.differ < 10 {
                println!("differs: {}\n  port   {port:?}\n  oracle {oracle:?}", what());
            }
        }
    }
}

fn adpcm_cases(r: &mut Random, count: u64, mut each: impl FnMut(Adpcm)) {
    const COUNTS: [usize; 10] = [0, 1, 2, 12, 13, 14, 15, 27, 28, 60];
    for len in 0..=40 {
        for start in 0..=60 {
            for n in COUNTS {
                each(Adpcm::random(r, len, start, n));
            }
        }
    }
    // Each header at a frame's start, with extreme coefficients and full nibbles.
    for header in 0..=255u8 {
        for fill in [0x00, 0x77, 0x78, 0x87, 0x88, 0xff] {
            let mut case = Adpcm::random(r, 16, 0, 28);
            case.data.fill(fill);
            case.data[0] = header;
            case.data[8] = header;
            let extreme = [i16::MIN, i16::MAX][r.below(2) as usize];
            case.coefficients.fill(extreme);
            each(case);
        }
    }
    // Starts around the limit of question 8, and refusals by both questions at once.
    for start in [FAR - 1, FAR, FAR + 1, u64::MAX - 1, u64::MAX] {
        for n in COUNTS {
            for len in [0, 1, 7, 8, 9, 40] {
                each(Adpcm::random(r, len, start, n));
            }
        }
    }
    for _ in 0..count {
        let len = r.below(41) as usize;
        let (start, n) = (r.below(61), r.below(64) as usize);
        each(Adpcm::random(r, len, start, n));
    }
}

/// Whether nothing differed, and all was reached.
fn compare(seed: u64, count: u64) -> bool {
    let r = &mut Random(seed);
    let mut adpcm = Tally::default();
    let mut refused = [0u64; 2];
    adpcm_cases(r, count, |c| {
        let oracle = c.oracle();
        if oracle.0 >= 8 {
            refused[oracle.0 as usize - 8] += 1;
        }
        adpcm.hold(|| format!("adpcm start {} count {} room {} data {:02x?}", c.start, c.count, c.room, c.data), c.port(), oracle);
    });
    println!("adpcm: {} calls, of which refused by 8: {}, by 9: {}; {} differ", adpcm.compared, refused[0], refused[1], adpcm.differ);

    let mut places = Tally::default();
    for n in (0..100_000).chain((0..100_000).map(|_| r.next() >> 4)) {
        places.hold(|| format!("adpcm_size {n}"), unsafe { probe_adpcm_size(n) }, dsp::adpcm_size(n));
    }
    for len in 0..10 {
        for _ in 0..1000 {
            let d = r.bytes(len);
            let c = unsafe { probe_parse(d.as_ptr(), d.len()) };
            let c = dsp::AdpcmContext { pred_scale: c.pred_scale, history0: c.history0, history1: c.history1 };
            places.hold(|| format!("parse {d:02x?}"), c, dsp::AdpcmContext::parse(&d));
        }
    }
    println!("adpcm_size and AdpcmContext::parse: {} calls; {} differ", places.compared, places.differ);

    let mut resample = Tally::default();
    let (mut three, mut still, mut unanswered, mut shown) = (0, 0, 0, [0; 2]);
    for _ in 0..count.max(200_000) {
        let c = Resample::random(r);
        three += u64::from(c.three());
        for (n, shows) in shown.iter_mut().zip(c.shows()) {
            *n += u64::from(shows);
        }
        let oracle = c.oracle();
        still += u64::from(oracle.0 == 0);
        unanswered += u64::from(oracle::take_no_answers() > 0);
        let what = || format!("resample {} inputs count {} ratio {} fraction {}", c.input.len(), c.count, c.ratio, c.fraction);
        resample.hold(what, c.port(), oracle);
    }
    println!("resample and needed: {} calls, of which three samples: {three}, needed 0: {still}; {} differ", resample.compared, resample.differ);
    let [third, elsewhere] = shown;
    println!("  of three samples {third} would differ with the third as fourth point, {elsewhere} with the point rounded elsewhere");
    let by_rule = rules::take_fourths();
    println!("  without answer by the Rust: {unanswered}; by document 02's rule: {by_rule}");

    let mut leaves = Tally::default();
    for k in 0..count.max(1_000_000) {
        let b = if k % 2 == 0 { r.next() as u32 } else { r.float().to_bits() };
        let (x, y) = (f32::from_bits(b), r.float());
        unsafe {
            leaves.hold(|| format!("from_bits {b:08x}"), bits(probe_from_bits(b)), bits(x));
            leaves.hold(|| format!("to_bits {b:08x}"), probe_to_bits(x), bits(x));
            leaves.hold(|| format!("as usize {b:08x}"), probe_as_usize(x), x as usize as u64);
            leaves.hold(|| format!("floor {b:08x}"), bits(probe_floor(x)), bits(x.floor()));
            leaves.hold(|| format!("is_finite {b:08x}"), probe_is_finite(x), u32::from(x.is_finite()));
            leaves.hold(|| format!("min {b:08x}"), bits(probe_min(x, 1.0)), bits(x.min(1.0)));
            if x != 0.0 || y != 0.0 {
                leaves.hold(|| format!("min {x} {y}"), bits(probe_min(x, y)), bits(x.min(y)));
            }
            leaves.hold(|| format!("clamp {b:08x}"), bits(probe_clamp(x, -1.0, 1.0)), bits(x.clamp(-1.0, 1.0)));
            let ratio = if x.is_finite() { x.clamp(0.0, 16.0) } else { 0.0 };
            leaves.hold(|| format!("clamp_ratio {b:08x}"), bits(probe_clamp_ratio(x)), bits(ratio));
        }
    }
    println!("leaves of floats: {} calls; {} differ", leaves.compared, leaves.differ);

    let all = [adpcm, places, resample, leaves];
    let (n, m) = all.iter().fold((0, 0), |(n, m), t| (n + t.compared, m + t.differ));
    let none = [three, third, elsewhere, unanswered, by_rule].contains(&0);
    if none {
        println!("never reached: a resample of three samples, or one that shows its fourth point");
    }
    println!("{n} compared, {m} differ");
    m == 0 && !none
}

fn hex(words: &[u32]) -> String {
    words.iter().map(|w| format!(" {w:08x}")).collect()
}

/// A sample of the cases, as bytes, and the oracle's answers, as lines.
fn store(stdin: &str, stdout: &str) {
    let r = &mut Random(1);
    let (mut input, mut lines) = (Vec::new(), String::new());
    let mut k = 0u64;
    adpcm_cases(r, 2000, |c| {
        k += 1;
        if k % 211 == 0 {
            c.store(&mut input);
            let Decoded(number, done, header, h0, h1, out) = c.oracle();
            let context = hex(&[u32::from(header), bits(h0.into()), bits(h1.into())]);
            lines += &format!("adpcm {number} {done}{context}{}\n", hex(&out));
        }
    });
    for _ in 0..160 {
        let c = Resample::random(r);
        c.store(&mut input);
        let Resampled(needed, next, out) = c.oracle();
        lines += &format!("resample {needed} {next:08x}{}\n", hex(&out));
    }
    std::fs::write(stdin, &input).unwrap();
    std::fs::write(stdout, &lines).unwrap();
    println!("{} bytes of cases, {} lines of answers", input.len(), lines.lines().count());
}

fn main() {
    let args: Vec<String> = std::env::args().skip(1).collect();
    if args.first().is_some_and(|a| a == "store") {
        store(&args[1], &args[2]);
        return;
    }
    let number = |k: usize, d| args.get(k).map_or(d, |a| a.parse().expect("a number"));
    if !compare(number(0, 1), number(1, 1_000_000)) {
        std::process::exit(1);
    }
}
