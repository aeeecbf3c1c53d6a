//! Updates and renders of typical titles against kirikae's, from the same state, call after call.
mod desks;
#[path = "../compare/generate.rs"]
mod generate;
#[path = "../compare/inputs.rs"]
mod inputs;
#[path = "../compare/port.rs"]
mod port;
#[path = "../compare/random.rs"]
mod random;
mod voices;
mod workloads;
use generate::BASE;
use oracle::Memory;
use oracle::renderer::Probe;
use random::{Random, bits};
use std::hint::black_box;
use std::time::Instant;
use workloads::{MIXED, Workload};

/// The median over many runs, taken in turn, of port over Rust; each run is of so many calls.
fn ratio(name: &str, times: usize, mut port: impl FnMut(), mut rust: impl FnMut()) {
    let mut ratios: Vec<f64> = (0..301)
        .map(|_| {
            let t = Instant::now();
            (0..times).for_each(|_| port());
            let a = t.elapsed().as_secs_f64();
            let t = Instant::now();
            (0..times).for_each(|_| rust());
            a / t.elapsed().as_secs_f64()
        })
        .collect();
    ratios.sort_by(f64::total_cmp);
    println!("{name}: {:.2}", ratios[150]);
}

/// Renders of both from the same state: 200 that must be the same, and then timed ones.
fn renders(Workload { name, times, samples, sounds, slices: mut s, probe }: Workload, memory: &[u8]) {
    let (mem, range) = (Memory { base: BASE, bytes: memory }, port::whole(BASE, memory));
    let mut frames = vec![0.0; 2 * samples];
    for _ in 0..200 {
        assert_eq!(port::render(&mut s, &range, memory, &mut frames).number, 0, "{name}");
        let theirs = probe.render(&mem);
        assert!(frames.iter().zip(theirs.as_flattened()).all(|(x, y)| bits(*x) == bits(*y)), "{name}: frames differ");
    }
    assert_eq!(sounds, frames.iter().any(|&x| x != 0.0), "{name}");
    ratio(
        &format!("render, {name}"),
        times,
        || {
            black_box(port::render(&mut s, &range, black_box(memory), &mut frames));
        },
        || {
            black_box(probe.render(black_box(&mem)));
        },
    );
}

fn main() {
    let r = &mut Random(7);
    let memory = voices::memory(r, 200_000);
    workloads::all(memory.len()).for_each(|workload| renders(workload, &memory));

    let before = MIXED.state(memory.len());
    let input = loop {
        let (bytes, kind) = inputs::input(r, &before.words, memory.len() as u64);
        if kind == 0 {
            break bytes;
        }
    };
    let (mut s, probe) = (before.clone(), Probe::restore(&before));
    let mut reply = vec![0; probe.update(&input, 0x2000).len()];
    assert_eq!(port::update(&mut s, 0x2000, &input, &mut reply).number, 0);
    for _ in 0..20 {
        assert_eq!(port::update(&mut s, 0x2000, &input, &mut reply).number, 0);
        assert_eq!(reply, probe.update(&input, 0x2000), "replies differ");
    }
    ratio(
        &format!("update, 24 voices, {} bytes", input.len()),
        10,
        || {
            black_box(port::update(&mut s, 0x2000, black_box(&input), &mut reply));
        },
        || {
            black_box(probe.update(black_box(&input), 0x2000));
        },
    );
}
