//! Holds a render to kirikae's `State::render`: the frames, the rounds and the whole state after it, from any whole state.
//!
//! `render [SEED [COUNT]]` compares COUNT renders of random desks, some of them several in a row on one state.
//! The Rust has no answer to a render in which a voice needs no new sample: of such a render all but the frames is compared; frames by the
//! driver `rules`. From a COUNT of 1,000 on, there must be some.
mod generate;
mod lively;
#[allow(dead_code)]
mod port;
mod random;
use generate::BASE;
use lively::lively;
use oracle::mixer::probe::Slices;
use oracle::renderer::Probe;
use oracle::{Memory, take_no_answers, take_rounds};
use port::{all, place, places, seen, whole};
use random::Random;

/// The port's render, with all of memory at a base: its number and rounds, the state after it and the frame slice, filled with 0.25 before.
fn rendered(before: &Slices, base: u64, memory: &[u8], room: usize) -> (u32, u64, Slices, Vec<f32>) {
    let mut s = before.clone();
    let mut frames = vec![0.25; room];
    let answer = port::render(&mut s, &whole(base, memory), memory, &mut frames);
    (answer.number, u64::from(answer.rounds), s, frames)
}

fn main() {
    let args: Vec<String> = std::env::args().skip(1).collect();
    let number = |k: usize, d| args.get(k).map_or(d, |a| a.parse().expect("a number"));
    let (r, count) = (&mut Random(number(0, 1)), number(1, 50_000));
    let (mut compared, mut differ) = (0u64, 0u64);
    let (mut rounds, mut sounding, mut nans, mut without, mut most) = (0u64, 0u64, 0u64, 0u64, [0u32; 2]);
    while compared < count {
        let size = [0, 6, 400, 2000, 2000, 2000][r.below(6) as usize];
        let mut before = lively(r, size);
        for _ in 0..1 + r.below(3) {
            let memory = r.bytes(size as usize);
            let oracle = Probe::restore(&before);
            take_rounds();
            let frames: Vec<f32> = oracle.render(&Memory { base: BASE, bytes: &memory }).into_iter().flatten().collect();
            let (spent, unanswered) = (take_rounds(), take_no_answers() > 0);
            let after = oracle.slices();
            let room = frames.len() + r.below(6) as usize;
            let (number, given, slices, out) = rendered(&before, BASE, &memory, room);
            let heard = unanswered || all(&out[..frames.len()]) == all(&frames);
            let kept = out[frames.len()..].iter().all(|&x| x == 0.25);
            let same = number == 0 && given == spent && heard && kept && seen(&slices) == seen(&after);
            compared += 1;
            rounds += spent;
            without += u64::from(unanswered);
            sounding += u64::from(!unanswered && frames.iter().any(|&x| x != 0.0));
            nans += u64::from(!unanswered && frames.iter().any(|x| x.is_nan()));
            most = [most[0].max(before.words[3]), most[1].max(before.words[8])];
            if !same {
                differ += 1;
                if differ < 6 {
                    println!("differs: parameters {:x?}: rounds {given} against {spent}", &before.words[..10]);
                    println!("  frames {:?}, {}", place(&all(&out[..frames.len()]), &all(&frames)), places(&slices, &after));
                }
            }
            // Memory that reaches past 2^63 is refused by 5, and one float too few for the frames by 7; nothing changes.
            if r.below(32) == 0 {
                for (base, room, refusal) in [((1 << 63) - size + 1, room, 5), (BASE, frames.len() - 1, 7)] {
                    let (number, given, slices, out) = rendered(&before, base, &memory, room);
                    compared += 1;
                    if (number, given) != (refusal, 0) || seen(&slices) != seen(&before) || out.iter().any(|&x| x != 0.25) {
                        differ += 1;
                        println!("differs: refusal {refusal} is {number}");
                    }
                }
            }
            before = after;
        }
    }
    println!("renders: {sounding} with frames that are not all 0, {nans} with a NaN; {rounds} rounds; up to {} sub-mixes and {} destinations", most[0], most[1]);
    println!("without answer: {without} renders, whose frames are not compared");
    let none = count >= 1000 && without == 0;
    if none {
        println!("never reached: a render without answer");
    }
    println!("{compared} compared, {differ} differ");
    if differ != 0 || none {
        std::process::exit(1);
    }
}
