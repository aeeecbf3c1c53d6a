//! Holds an update to kirikae's `Renderer::update`: the reply's bytes and the whole state after it, from any whole state.
//!
//! `update [SEED [COUNT]]` compares COUNT updates, well-formed, cut short, damaged and of any bytes, over revisions 0 to 11 and the word 0.
//! The Rust isn't given those that are empty: they are held to compare/empty.rs. From a COUNT of 1,000 on, there must be some.
//! `update lengths` compares 40 well-formed inputs cut short at every length from 1 on.
mod empty;
mod generate;
mod inputs;
#[allow(dead_code)]
mod port;
mod random;
use empty::Reached;
use generate::state;
use inputs::input;
use oracle::mixer::probe::Slices;
use oracle::renderer::Probe;
use port::{place, places, seen, unchanged};
use random::Random;

/// The port's update: its answer's number, the state after it and the reply slice, filled with 0xa5 before.
fn updated(before: &Slices, input: &[u8], expected: u32, room: usize) -> (u32, Slices, Vec<u8>) {
    let mut s = before.clone();
    let mut reply = vec![0xa5; room];
    let updated = port::update(&mut s, expected, input, &mut reply);
    (updated.number, s, reply)
}

/// The reply and the state that there must be: the Rust's, or for an empty update document 02's.
fn should(before: &Slices, input: &[u8], expected: u32) -> (Vec<u8>, Slices) {
    if input.is_empty() {
        return (empty::reply(before, expected), before.clone());
    }
    let oracle = Probe::restore(before);
    (oracle.update(input, expected as usize), oracle.slices())
}

/// Inputs cut short at every length from 1 on, each on a state of its own.
fn lengths(inputs: u64) -> bool {
    let r = &mut Random(11);
    let (mut compared, mut differ, mut done) = (0u64, 0u64, 0);
    while done < inputs {
        let before = state(r, 2000);
        let (bytes, kind) = input(r, &before.words, 2000);
        if kind != 0 || bytes.len() > 12_000 {
            continue;
        }
        done += 1;
        for n in 1..=bytes.len() {
            let (reply, after) = should(&before, &bytes[..n], 0x2000);
            let (answer, slices, out) = updated(&before, &bytes[..n], 0x2000, reply.len());
            compared += 1;
            differ += u64::from(answer != 0 || out != reply || seen(&slices) != seen(&after));
        }
    }
    println!("{inputs} inputs, each cut short at every length from 1 on");
    println!("{compared} compared, {differ} differ");
    differ == 0
}

fn main() {
    let args: Vec<String> = std::env::args().skip(1).collect();
    if args.first().is_some_and(|a| a == "lengths") {
        std::process::exit(i32::from(!lengths(40)));
    }
    let number = |k: usize, d| args.get(k).map_or(d, |a| a.parse().expect("a number"));
    let (r, count) = (&mut Random(number(0, 1)), number(1, 100_000));
    let (mut compared, mut differ) = (0u64, 0u64);
    let (mut kinds, mut revisions, mut fresh, mut changed) = ([0u64; 4], [0u64; 13], 0u64, 0u64);
    let (mut reached, mut empty_refused) = (Reached::default(), 0u64);
    for k in 0..count {
        let mut before = state(r, 2000);
        // An update after another finds what it left: every third runs on.
        for _ in 0..[1, 1, 3][(k % 3) as usize] {
            let (bytes, kind) = input(r, &before.words, 2000);
            let expected = match r.below(4) {
                0 => r.below(0x400) as u32,
                1 => r.next() as u32 % 0x8000,
                _ => 0x1000 + r.below(0x1000) as u32,
            };
            let (reply, after) = should(&before, &bytes, expected);
            let room = reply.len() + r.below(20) as usize;
            let (answer, slices, out) = updated(&before, &bytes, expected, room);
            let (given, beyond) = out.split_at(reply.len());
            let kept = !bytes.is_empty() || unchanged(&slices, &before);
            let same = answer == 0 && given == reply && beyond.iter().all(|&b| b == 0xa5) && kept && seen(&slices) == seen(&after);
            compared += 1;
            reached.count(&before, &bytes);
            kinds[kind] += 1;
            let revision = before.words[9] >> 24;
            revisions[if revision == 0 { 12 } else { revision as usize - 0x30 }] += 1;
            fresh += u64::from(reply.len() > 0x40);
            changed += u64::from(seen(&before) != seen(&after));
            if !same {
                differ += 1;
                if differ < 6 {
                    println!("differs: turn {k}, kind {kind}, answer {answer}, parameters {:x?}, expected {expected}", &before.words[..10]);
                    println!("  reply {} bytes, first difference at {:?}", reply.len(), place(&out[..reply.len()], &reply));
                    println!("  {}", places(&slices, &after));
                }
            }
            // One byte too few for the reply is refused by 6, and nothing changes.
            if r.below(16) == 0 {
                let (answer, slices, out) = updated(&before, &bytes, expected, reply.len() - 1);
                compared += 1;
                empty_refused += u64::from(bytes.is_empty());
                if answer != 6 || seen(&slices) != seen(&before) || out.iter().any(|&b| b != 0xa5) {
                    differ += 1;
                    println!("differs: turn {k}: a reply slice that is too short gives {answer}");
                }
            }
            before = after;
        }
    }
    println!("updates: {} well-formed, {} cut short, {} damaged, {} of any bytes; {changed} change the state", kinds[0], kinds[1], kinds[2], kinds[3]);
    println!("by revision, 0 to 11 and the word 0: {revisions:?}; {fresh} replies with sections");
    println!("not given to the Rust: {reached}; {empty_refused} more refused by 6");
    let none = count >= 1000 && reached.empty == 0;
    if none {
        println!("never reached: an empty update");
    }
    println!("{compared} compared, {differ} differ");
    if differ != 0 || none {
        std::process::exit(1);
    }
}
