//! Flush counts: a prepare of one voice with small counts and the largest, and a render of 64 voices after updates that piled counts up.
//! The Rust walks as many turns as the count says. Our prepare loads the voice from its rows and stores it there; the Rust's does not.
mod desks;
#[path = "../compare/generate.rs"]
mod generate;
#[path = "../compare/inputs.rs"]
mod inputs;
#[path = "../compare/port.rs"]
mod port;
#[path = "../compare/random.rs"]
mod random;
use desks::Desk;
use generate::{BASE, CONSUMED, PLAY};
use oracle::mixer::probe::{self, Rows, Slices};
use oracle::renderer::Probe;
use oracle::{Memory, take_rounds};
use random::Random;
use std::hint::black_box;
use std::time::Instant;

unsafe extern "C" {
    fn probe_prepare(
        words: *mut u32, words_len: usize, longs: *mut u64, longs_len: usize, floats: *mut f32, floats_len: usize, contexts: *mut u16,
        contexts_len: usize, history: *mut f32, history_len: usize,
    ) -> u32;
}

/// Flush counts of a prepare: none, the most turns that the proved code walks, and the largest count.
const COUNTS: [u32; 3] = [0, 4, u32::MAX];
/// The play mark of a voice that plays.
const STARTED: u32 = 0;
/// Copies of a voice that are prepared in a run, and runs.
const COPIES: usize = 100;
const RUNS: usize = 301;
/// A prepare of so many microseconds is timed alone.
const LONG: f64 = 1e5;

/// What an update flushes of each voice, the updates of a pile-up, and pile-ups.
const FLUSH: u8 = u8::MAX;
const UPDATES: u32 = 1_000_000u32.div_ceil(FLUSH as u32);
const PILES: usize = 11;

/// The time of a call, in microseconds, and what it gives.
fn time<T>(call: impl FnOnce() -> T) -> (f64, T) {
    let t = Instant::now();
    let given = call();
    (t.elapsed().as_secs_f64() * 1e6, given)
}

fn median(mut times: Vec<f64>) -> f64 {
    times.sort_by(f64::total_cmp);
    times[times.len() / 2]
}

/// Microseconds in a unit in which they can be read.
fn told(us: f64) -> String {
    match us {
        ..1.0 => format!("{:.0} ns", us * 1e3),
        ..1e3 => format!("{us:.2} us"),
        ..1e6 => format!("{:.2} ms", us / 1e3),
        _ => format!("{:.2} s", us / 1e6),
    }
}

/// A line of the result: the part of the Rust's time, and both times.
fn tell(what: &str, part: f64, ours: f64, rust: f64) {
    let part = if part < 0.001 { format!("{part:.1e}") } else { format!("{part:.3}") };
    println!("{what}: {part} of the Rust's time ({}, {})", told(ours), told(rust));
}

/// What is compared of a voice, with every NaN as one.
fn seen(v: &Rows) -> (Vec<u32>, Vec<u64>, Vec<u32>, Vec<u16>, Vec<u32>) {
    (v.words.clone(), v.longs.clone(), port::all(&v.floats), v.context.clone(), port::all(&v.history))
}

/// Our prepare of a voice: whether it is ready.
fn prepare(v: &mut Rows) -> bool {
    let code = unsafe {
        probe_prepare(
            v.words.as_mut_ptr(), v.words.len(), v.longs.as_mut_ptr(), v.longs.len(), v.floats.as_mut_ptr(), v.floats.len(),
            v.context.as_mut_ptr(), v.context.len(), v.history.as_mut_ptr(), v.history.len(),
        )
    };
    code == 1
}

/// The time of a prepare, in microseconds, whether the voice is ready, and the voice after it. The time is the median of runs over copies
/// of the voice, or that of the first prepare where it takes long.
fn prepared<V>(new: impl Fn() -> V, prepare: impl Fn(&mut V) -> bool) -> (f64, bool, V) {
    let mut voice = new();
    let (once, ready) = time(|| prepare(&mut voice));
    if once >= LONG {
        return (once, ready, voice);
    }
    let run = |_| {
        let mut copies: Vec<V> = (0..COPIES).map(|_| new()).collect();
        time(|| copies.iter_mut().for_each(|v| _ = black_box(prepare(black_box(v))))).0 / COPIES as f64
    };
    (median((0..RUNS).map(run).collect()), ready, voice)
}

/// A prepare of one voice with this flush count on both sides, which must leave the same.
fn prepares(count: u32) {
    let mut before = generate::rows(&mut Random(7), 400, count);
    before.words[PLAY] = STARTED;
    let (ours, ready, voice) = prepared(|| before.clone(), prepare);
    let (rust, theirs, judge) = prepared(|| probe::Probe::new(&before), probe::Probe::prepare);
    assert_eq!((ready, seen(&voice)), (theirs, seen(&judge.rows())), "flush count {count}: the voices differ");
    assert_eq!(voice.words[CONSUMED], before.words[CONSUMED].wrapping_add(count), "flush count {count}: not all is flushed");
    tell(&format!("prepare, flush count {count}"), ours / rust, ours, rust);
}

/// A desk on both sides.
struct Both<'a> {
    desk: &'a Desk,
    memory: &'a [u8],
    s: Slices,
    probe: Probe,
    reply: Vec<u8>,
}

impl Both<'_> {
    /// An update, the reply to which must be the same.
    fn update(&mut self, input: &[u8]) {
        assert_eq!(port::update(&mut self.s, 0, input, &mut self.reply).number, 0, "{}", self.desk.name);
        assert_eq!(self.reply, self.probe.update(input, 0), "{}: replies differ", self.desk.name);
    }

    /// The times of a render, ours and the Rust's; frames, rounds and state must be the same.
    fn render(&mut self, sounds: bool) -> [f64; 2] {
        let (name, memory) = (self.desk.name, Memory { base: BASE, bytes: self.memory });
        let range = port::whole(BASE, self.memory);
        let mut frames = vec![0.0; 2 * self.desk.samples];
        let (ours, r) = time(|| port::render(&mut self.s, &range, black_box(self.memory), &mut frames));
        take_rounds();
        let (rust, theirs) = time(|| self.probe.render(black_box(&memory)));
        assert_eq!((r.number, u64::from(r.rounds)), (0, take_rounds()), "{name}: rounds differ");
        assert_eq!(port::all(&frames), port::all(theirs.as_flattened()), "{name}: frames differ");
        assert_eq!(port::seen(&self.s), port::seen(&self.probe.slices()), "{name}: states differ");
        assert_eq!(sounds, frames.iter().any(|&x| x != 0.0), "{name}");
        [ours, rust]
    }

    /// How many wave buffers each voice has consumed, as the last reply tells it.
    fn consumed(&self) -> impl Iterator<Item = u32> {
        self.reply[self.desk.told()].chunks(16).map(|voice| u32::from_le_bytes(voice[8..12].try_into().unwrap()))
    }
}

/// Renders of a desk: while its voices play, after a pile-up, and after the same updates with nothing to flush. The pile-up leaves the
/// voices no buffer, so that the last two differ in the flush alone.
fn renders(desk: &Desk, memory: &[u8]) {
    let (s, probe) = desk.open(memory.len());
    let reply = vec![0; probe.reply_length(0)];
    let mut both = Both { desk, memory, s, probe, reply };
    let (anew, [(_, on), _]) = (desk.anew(memory.len()), desk.later(memory.len()));
    let [flushing, idle] = [FLUSH, 0].map(|flush| desk.unqueued(memory.len(), flush));
    let count = UPDATES * u32::from(FLUSH);
    let [mut playing, mut piled, mut empty] = [const { Vec::new() }; 3];
    for _ in 0..PILES {
        both.update(&anew);
        both.render(true);
        both.update(&on);
        playing.push(both.render(true));
        for (unqueued, consumed, times) in [(&flushing, 0, &mut piled), (&idle, count, &mut empty)] {
            (0..UPDATES).for_each(|_| both.update(unqueued));
            both.update(&on);
            assert!(both.consumed().all(|n| n == consumed), "{}: flushed before the render", desk.name);
            times.push(both.render(false));
            both.update(&on);
            assert!(both.consumed().all(|n| n == count), "{}: not all is flushed", desk.name);
        }
    }
    for (what, times) in [
        ("while they play".to_string(), playing),
        (format!("after {UPDATES} updates that flush {FLUSH} of each, together {count}"), piled),
        (format!("after {UPDATES} updates that flush nothing"), empty),
    ] {
        let part = median(times.iter().map(|[a, b]| a / b).collect());
        let [ours, rust] = [0, 1].map(|side| median(times.iter().map(|t| t[side]).collect()));
        tell(&format!("render, {}, {what}", desk.name), part, ours, rust);
    }
}

fn main() {
    COUNTS.into_iter().for_each(prepares);
    renders(&desks::FLUSHED, &Random(7).bytes(200_000));
}
