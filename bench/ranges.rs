//! Renders in which every read crosses ranges, over the same renders with one range. Memory is in 16 ranges that touch, and whose parts
//! stand in the slice the other way round; at each of the 15 bounds stands something that voices read.
#[path = "../compare/generate.rs"]
mod generate;
#[path = "../compare/port.rs"]
mod port;
#[path = "../compare/random.rs"]
mod random;
mod voices;
use generate::BASE;
use oracle::mixer::probe::Slices;
use oracle::ranges::{Ranges, parse, take_reads};
use oracle::renderer::Probe;
use random::Random;
use std::hint::black_box;
use std::time::Instant;
use voices::{SAMPLES, Sound};

const VOICES: usize = 24;
/// Coefficients at the base, a context behind them, then the sounds, as many as there are bounds left.
const CONTEXT: usize = 32;
const SOUNDS: usize = 40;
const COUNT: usize = 13;
/// Renders in a run, and runs.
const TIMES: usize = 10;
const RUNS: usize = 301;

/// What the voices loop: every second one PCM16, the others ADPCM; the samples of each loop, the bytes from one sound to the next, and the
/// byte of a sound at which it is cut.
struct Desk {
    name: &'static str,
    samples: [u32; 2],
    stride: usize,
    cut: usize,
}

/// A loop of as many samples as a render takes is one read a render; one of a PCM16 sample is 64, one of 12 ADPCM samples 20.
const DESKS: [Desk; 2] = [
    Desk { name: "each buffer of 240 samples cut", samples: [SAMPLES as u32; 2], stride: 480, cut: 69 },
    Desk { name: "each PCM16 sample and each ADPCM frame cut", samples: [1, 12], stride: 8, cut: 1 },
];

impl Desk {
    /// The state of a title whose voices share the sounds.
    fn state(&self) -> Slices {
        let sound = |v: usize| Sound {
            format: [2, 6][v % 2],
            channels: 1,
            rate: 48000,
            address: BASE + (SOUNDS + v % COUNT * self.stride) as u64,
            size: self.stride as u64,
            samples: self.samples[v % 2],
            context: BASE + CONTEXT as u64,
        };
        voices::state(&(0..VOICES).map(sound).collect::<Vec<Sound>>(), true)
    }

    /// Memory in 16 ranges, as numbers, and the slice with their parts.
    fn cut(&self, memory: &[u8]) -> (Vec<u64>, Vec<u8>) {
        let sounds = (0..COUNT).map(|k| SOUNDS + k * self.stride + self.cut);
        let bounds: Vec<usize> = [0, 17, CONTEXT + 3].into_iter().chain(sounds).chain([memory.len()]).collect();
        let (mut numbers, mut slice) = (Vec::new(), Vec::new());
        for w in bounds.windows(2).rev() {
            numbers.push([BASE + w[0] as u64, slice.len() as u64, (w[1] - w[0]) as u64]);
            slice.extend(&memory[w[0]..w[1]]);
        }
        (numbers.into_iter().rev().flatten().collect(), slice)
    }
}

/// The middle one.
fn median(mut times: Vec<f64>) -> f64 {
    times.sort_by(f64::total_cmp);
    times[times.len() / 2]
}

/// The time of a call in a run of some, in microseconds.
fn time(mut call: impl FnMut()) -> f64 {
    let t = Instant::now();
    (0..TIMES).for_each(|_| call());
    t.elapsed().as_secs_f64() * 1e6 / TIMES as f64
}

/// Whether each read that the Rust makes in a render from this state crosses ranges.
fn all_cross(s: &Slices, numbers: &[u64], slice: &[u8]) -> bool {
    let ranges = parse(numbers);
    Probe::restore(s).render(&Ranges { ranges: &ranges, bytes: slice });
    let reads = take_reads();
    let of = |address| ranges.iter().position(|r| r.has(address));
    let crosses = |&(at, n): &(u64, u64)| of(at).is_some() && of(at + n - 1) > of(at);
    reads.len() >= VOICES && reads.iter().all(crosses)
}

/// Both renders from the same state: 200 that must be the same, and then timed ones.
fn compare(desk: &Desk) {
    let memory = voices::memory(&mut Random(7), SOUNDS + COUNT * desk.stride);
    let (numbers, slice) = desk.cut(&memory);
    let whole = port::whole(BASE, &memory);
    let (mut one, mut many) = (desk.state(), desk.state());
    let (mut frames, mut others) = (vec![0.0; 2 * SAMPLES], vec![0.0; 2 * SAMPLES]);
    for _ in 0..200 {
        assert!(all_cross(&many, &numbers, &slice), "{}: a read does not cross", desk.name);
        let (a, b) = (port::render(&mut one, &whole, &memory, &mut frames), port::render(&mut many, &numbers, &slice, &mut others));
        assert_eq!((a.number, a), (0, b), "{}: answers differ", desk.name);
        assert_eq!(port::all(&frames), port::all(&others), "{}: frames differ", desk.name);
        assert_eq!(port::seen(&one), port::seen(&many), "{}: states differ", desk.name);
    }
    assert!(frames.iter().any(|&x| x != 0.0), "{} is silent", desk.name);
    let mut times = [const { Vec::new() }; 2];
    // Taken in turn, so that both see the same machine.
    for _ in 0..RUNS {
        times[0].push(time(|| _ = black_box(port::render(&mut many, &numbers, black_box(&slice), &mut others))));
        times[1].push(time(|| _ = black_box(port::render(&mut one, &whole, black_box(&memory), &mut frames))));
    }
    let part = median(times[0].iter().zip(&times[1]).map(|(a, b)| a / b).collect());
    let [many, one] = times.map(median);
    println!("render, 24 voices, 240 samples, in 16 ranges, {}: {part:.2} of one range's time ({many:.2} us, {one:.2} us)", desk.name);
}

fn main() {
    DESKS.iter().for_each(compare);
}
