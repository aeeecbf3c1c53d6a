//! An update without input, which tells the positions, over the updates that a title had to send for them until now: the records of all
//! voices, or of the whole desk. The Rust knows no update without input, so that its time is that of these.
mod desks;
#[path = "../compare/generate.rs"]
mod generate;
#[path = "../compare/inputs.rs"]
mod inputs;
#[path = "../compare/port.rs"]
mod port;
#[path = "../compare/random.rs"]
mod random;
use desks::Desk;
use generate::BASE;
use oracle::Memory;
use random::Random;
use std::hint::black_box;
use std::time::Instant;

/// Renders before the first question.
const RENDERS: usize = 20;
const CALLS: usize = 100;

/// The time of a call in a run of many, in microseconds.
fn time(mut call: impl FnMut()) -> f64 {
    let t = Instant::now();
    (0..CALLS).for_each(|_| call());
    t.elapsed().as_secs_f64() * 1e6 / CALLS as f64
}

fn median(mut times: Vec<f64>) -> f64 {
    times.sort_by(f64::total_cmp);
    times[times.len() / 2]
}

fn ask(desk: &Desk, memory: &[u8]) {
    let (mut s, probe) = desk.open(memory.len());
    let mut frames = vec![0.0; 2 * desk.samples];
    for _ in 0..RENDERS {
        assert_eq!(port::render(&mut s, &port::whole(BASE, memory), memory, &mut frames).number, 0, "{}", desk.name);
        probe.render(&Memory { base: BASE, bytes: memory });
    }
    let (mut reply, voices) = (vec![0; probe.reply_length(0)], desk.told());
    for (what, input) in desk.later(memory.len()) {
        let (theirs, before) = (probe.update(&input, 0), port::seen(&s));
        assert_eq!(port::update(&mut s, 0, &[], &mut reply).number, 0, "{}", desk.name);
        assert_eq!(reply[voices.clone()], theirs[voices.clone()], "{}: positions differ", desk.name);
        assert!(reply[voices.clone()].chunks(16).all(|voice| voice[..8] != [0; 8]), "{}: a voice has not played", desk.name);
        assert_eq!(before, port::seen(&s), "{}: the state differs", desk.name);
        let [mut asked, mut whole, mut rust] = [const { Vec::new() }; 3];
        // Taken in turn, so that all see the same machine.
        for _ in 0..301 {
            asked.push(time(|| _ = black_box(port::update(&mut s, 0, black_box(&[]), &mut reply))));
            whole.push(time(|| _ = black_box(port::update(&mut s, 0, black_box(&input), &mut reply))));
            rust.push(time(|| _ = black_box(probe.update(black_box(&input), 0))));
        }
        let over = |times: &[f64]| median(asked.iter().zip(times).map(|(a, b)| a / b).collect());
        let (by_rust, by_port) = (over(&rust), over(&whole));
        let [a, b, c] = [asked, rust, whole].map(median);
        let told = format!("update without input, {}, over one of {what}, {} bytes", desk.name, input.len());
        println!("{told}: {by_rust:.3} of the Rust's time, {by_port:.3} of ours ({a:.2} us, {b:.2} us, {c:.2} us)");
    }
}

fn main() {
    let memory = Random(7).bytes(200_000);
    desks::ASKED.iter().for_each(|desk| ask(desk, &memory));
}
