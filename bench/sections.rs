//! A section of eight renders over eight single calls, and over as many renders of the Rust, on the renders that title.rs times.
mod desks;
#[path = "../compare/generate.rs"]
mod generate;
#[path = "../compare/inputs.rs"]
mod inputs;
#[path = "../compare/port.rs"]
mod port;
#[path = "../compare/random.rs"]
mod random;
mod voices;
mod workloads;
use generate::BASE;
use oracle::Memory;
use random::{Random, bits};
use std::hint::black_box;
use std::time::Instant;
use workloads::Workload;

/// Renders of a section, and runs.
const COUNT: usize = 8;
const RUNS: usize = 1001;
/// Places of the stack: a frame of `deeper` is some 100 bytes, so that they spread over a page and more.
const PLACES: usize = 61;

/// The middle one.
fn median(mut times: Vec<f64>) -> f64 {
    times.sort_by(f64::total_cmp);
    times[times.len() / 2]
}

/// Makes a call so many frames further down the stack.
#[inline(never)]
fn deeper(frames: usize, call: &mut dyn FnMut()) {
    let frame = black_box([0u64; 7]);
    if frames == 0 { call() } else { deeper(frames - 1, call) }
    black_box(frame);
}

/// The time of so many calls from a place of the stack, in microseconds.
fn time(times: usize, place: usize, mut call: impl FnMut()) -> f64 {
    let mut taken = 0.0;
    deeper(place, &mut || {
        let t = Instant::now();
        (0..times).for_each(|_| call());
        taken = t.elapsed().as_secs_f64() * 1e6;
    });
    taken
}

/// All three from the same state: 25 sections that must be the same, and then timed ones, taken in turn. Sections and single calls, now
/// these first and now those, go on from one state to one frame slice, and each run from another place of the stack, so that where things
/// stand in memory makes no difference.
fn compare(Workload { name, times, samples, sounds, slices, probe }: Workload, memory: &[u8]) {
    let (mem, range, each) = (Memory { base: BASE, bytes: memory }, port::whole(BASE, memory), 2 * samples);
    let (mut joined, mut single) = (slices.clone(), slices);
    let (mut frames, mut others) = (vec![0.0; COUNT * each], vec![0.0; COUNT * each]);
    for _ in 0..25 {
        let answer = port::section(&mut joined, COUNT as u32, &range, memory, &mut frames);
        let rounds: u32 = others.chunks_mut(each).map(|out| port::render(&mut single, &range, memory, out).rounds).sum();
        assert_eq!((answer.number, answer.rounds), (0, rounds), "{name}: answers differ");
        assert_eq!(port::all(&frames), port::all(&others), "{name}: frames differ");
        assert!(port::unchanged(&joined, &single), "{name}: states differ");
        let theirs: Vec<f32> = (0..COUNT).flat_map(|_| probe.render(&mem)).flatten().collect();
        assert!(frames.iter().zip(&theirs).all(|(x, y)| bits(*x) == bits(*y)), "{name}: the Rust's frames differ");
    }
    assert_eq!(sounds, frames.iter().any(|&x| x != 0.0), "{name}");
    let (times, mut taken, s) = ((times / COUNT).max(2), [const { Vec::new() }; 3], &mut joined);
    for run in 0..RUNS {
        let place = run / 2 % PLACES;
        for turn in [run % 2, 1 - run % 2] {
            taken[turn].push(if turn == 0 {
                time(times, place, || _ = black_box(port::section(s, COUNT as u32, &range, black_box(memory), &mut frames)))
            } else {
                time(times, place, || {
                    for out in frames.chunks_mut(each) {
                        black_box(port::render(s, &range, black_box(memory), out));
                    }
                })
            });
        }
        taken[2].push(time(times * COUNT, place, || _ = black_box(probe.render(black_box(&mem)))));
    }
    let over = |k: usize| median(taken[0].iter().zip(&taken[k]).map(|(a, b)| a / b).collect());
    let (by_singles, by_rust) = (over(1), over(2));
    let [a, b, c] = taken.map(|all| median(all) / times as f64);
    let told = format!("{by_singles:.3} of {COUNT} single calls, {by_rust:.2} of the Rust's time");
    println!("section of {COUNT}, {name}: {told} ({a:.2} us, {b:.2} us, {c:.2} us)");
}

fn main() {
    let memory = voices::memory(&mut Random(7), 200_000);
    workloads::all(memory.len()).for_each(|workload| compare(workload, &memory));
}
