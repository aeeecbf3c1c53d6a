//! The merge of a title's block and a click's, over an update with the merged block, and over a merge in plain Rust (fast_merge.rs):
//! medians of many ratios. Half of the voices are the title's, half the click's. Both merges must give the same bytes.
use std::hint::black_box;
use std::time::Instant;

mod fast_merge;
#[path = "../compare/generate.rs"]
mod generate;
#[path = "../compare/inputs.rs"]
mod inputs;
#[path = "../compare/port.rs"]
mod port;
#[path = "../compare/random.rs"]
mod random;
#[path = "../bindings/rust/src/sys/mod.rs"]
mod sys;
use inputs::{Sections, put, put_u32};
use oracle::mixer::probe::Slices;
use sys::jeqlluna_merge;

const CALLS: usize = 100;
const RUNS: usize = 301;

/// What is merged: voices, bytes of pools, and mixes.
struct Desk {
    voices: usize,
    pools: usize,
    mixes: usize,
}

/// The first has 31,808 bytes: a header, 32 pools, and 64 resources and voices. The second has the mixes and the sink of a title too.
const DESKS: [Desk; 3] = [
    Desk { voices: 64, pools: 0x400, mixes: 0 },
    Desk { voices: 64, pools: 64 * 4 * 0x20, mixes: 5 },
    Desk { voices: 24, pools: 24 * 4 * 0x20, mixes: 5 },
];

impl Desk {
    fn parameters(&self) -> Vec<u8> {
        let mut d = vec![0; 0x34];
        let counts = [(0x00, 48000), (0x04, 240), (0x08, 2 * self.mixes), (0x0c, self.mixes.max(1) - 1), (0x10, self.voices), (0x14, 1)];
        counts.into_iter().for_each(|(at, n)| put_u32(&mut d, at, n as u32));
        put(&mut d, 0x30, b"REV8");
        d
    }

    /// A record that goes on, every fourth in stereo, with one buffer more.
    fn voice(&self, v: usize) -> Vec<u8> {
        let mut d = vec![0; 0x170];
        (d[9], d[0x0b]) = (1, 2);
        let fields = [(0x0c, 48000), (0x18, 1 + u32::from(v % 4 == 0)), (0x3c, 2), (0x5c, u32::MAX), (0x60, 0x10000), (0x68, 4000)];
        for (at, value) in fields.into_iter().chain([(0x1c, 1f32.to_bits()), (0x20, 0.75f32.to_bits()), (0x74, 900), (0x7c, u32::MAX)]) {
            put_u32(&mut d, at, value);
        }
        for b in 1..4 {
            d[0x60 + b * 0x38 + 0x1a] = 1;
        }
        (0..2).for_each(|c| put_u32(&mut d, 0x140 + 4 * c, (v + c) as u32));
        d
    }

    /// The block of one half of the voices.
    fn block(&self, click: bool) -> Vec<u8> {
        let (pools, resources) = (vec![1; self.pools], vec![2 + u8::from(click); self.voices * 0x70]);
        let mut s = Sections { pools, resources, ..Sections::default() };
        for v in 0..self.voices {
            let own = (v >= self.voices / 2) == click;
            s.voices.extend(if own { self.voice(v) } else { vec![0; 0x170] });
        }
        if self.mixes > 0 {
            s.mixes = vec![0; 0x20 + self.mixes * 0x930];
            put_u32(&mut s.mixes, 4, self.mixes as u32);
            for (m, record) in s.mixes[0x20..].chunks_mut(0x930).enumerate() {
                record[0x0c] = 1;
                put_u32(record, 0x10, m as u32);
            }
            s.sinks = vec![0; 0x140];
        }
        s.join(vec![0; 0x40])
    }

    /// A state with these parameters.
    fn open(&self) -> Slices {
        let parameters = self.parameters();
        let n = port::lengths(&parameters);
        let (words, longs, floats) = (vec![0; n.words], vec![0; n.longs], vec![0.0; n.floats]);
        let mut s = Slices { words, longs, floats, contexts: vec![0; n.contexts], history: vec![0.0; n.history] };
        assert_eq!(port::open(&parameters, &mut s), 0);
        s
    }
}

/// The port's merge.
fn merge(parameters: &[u8], title: &[u8], click: &[u8], output: &mut [u8]) -> Result<usize, u32> {
    let (p, t, c, out) = (parameters.as_ptr(), title.as_ptr(), click.as_ptr(), output.as_mut_ptr());
    let r = unsafe { jeqlluna_merge(p, parameters.len(), t, title.len(), c, click.len(), out, output.len()) };
    if r.number == 0 { Ok(r.size) } else { Err(r.number) }
}

/// The time of a call in a run of many, in microseconds.
fn time(mut call: impl FnMut()) -> f64 {
    let t = Instant::now();
    (0..CALLS).for_each(|_| call());
    t.elapsed().as_secs_f64() * 1e6 / CALLS as f64
}

fn median(mut times: Vec<f64>) -> f64 {
    times.sort_by(f64::total_cmp);
    times[times.len() / 2]
}

fn compare(desk: &Desk) {
    let (p, title, click, mut s) = (desk.parameters(), desk.block(false), desk.block(true), desk.open());
    let [mut block, mut plain] = [(); 2].map(|()| vec![0xa5; title.len()]);
    assert_eq!(merge(&p, &title, &click, &mut block), Ok(title.len()));
    assert_eq!(fast_merge::merge(&p, &title, &click, &mut plain), Ok(title.len()));
    assert!(block == plain, "the two merges differ");
    let (update, mut reply) = (block.clone(), vec![0; 0x4000]);
    assert_eq!(port::update(&mut s, 0, &update, &mut reply).number, 0);
    assert!((0..desk.voices).all(|k| s.words[10 + k * 58] == 1), "a voice is not in use");
    let [mut ours, mut rust, mut updates] = [const { Vec::new() }; 3];
    // Taken in turn, so that all see the same machine.
    for _ in 0..RUNS {
        ours.push(time(|| _ = black_box(merge(&p, black_box(&title), black_box(&click), &mut block))));
        rust.push(time(|| _ = black_box(fast_merge::merge(&p, black_box(&title), black_box(&click), &mut plain))));
        updates.push(time(|| _ = black_box(port::update(&mut s, 0, black_box(&update), &mut reply))));
    }
    let over = |times: &[f64]| median(ours.iter().zip(times).map(|(a, b)| a / b).collect());
    let (by_update, by_rust) = (over(&updates), over(&rust));
    let [a, b, c] = [ours, rust, updates].map(median);
    let told = format!("{by_update:.2} of an update's time with the merged block, {by_rust:.2} of plain Rust's");
    println!("merge, {} voices, {} bytes: {told} ({a:.2} us, update {c:.2} us, plain Rust {b:.2} us)", desk.voices, update.len());
}

fn main() {
    DESKS.iter().for_each(compare);
}
