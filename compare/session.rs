//! Holds whole sessions to the Rust: after each call its answer, the reply or the frames and rounds, and the whole state.
//!
//! `session [SEED [COUNT [MODE..]]]` compares COUNT sessions of each mode. A session that differs is made smaller and printed.
//! The Rust isn't given empty updates: those are held to compare/empty.rs. From 100 sessions of the mode `random` on, there must be some.
//! It has no answer to a render in which a voice needs no new sample: of such a render all but the frames is compared; frames by the driver
//! `rules`. From 100 sessions of the mode `slowed` on, there must be some.
//! In the modes `ranges` and `ranges_refused` memory is in ranges, which the oracle reads byte by byte. They print which reads crossed
//! ranges and which reasons refused a render; from 1,000 sessions on, none may be missing. The mode `sections` has many renders in one
//! call, for which the oracle renders as often; the port's section is also held to the port's single renders from the same state, to the
//! bit. It prints which counts, refusals and kinds of sections there were, of which likewise none may be missing.
mod both;
mod cuts;
mod desk;
mod empty;
#[allow(dead_code)]
mod generate;
mod inputs;
mod lends;
#[allow(dead_code)]
mod modes;
mod port;
mod random;
mod ranged;
mod refusals;
mod sectioned;
mod sections;
mod sessions;
mod spoils;
mod title;
use both::Judge;
use modes::{MODES, session};

fn main() {
    let args: Vec<String> = std::env::args().skip(1).collect();
    let number = |k: usize, d: u64| args.get(k).map_or(d, |a| a.parse().expect("a number"));
    let (seed, count) = (number(0, 1), number(1, 10_000));
    let wanted = args.get(2..).filter(|m| !m.is_empty()).map_or(MODES.to_vec(), |m| m.iter().map(String::as_str).collect());
    let total = sessions::compare(seed, count, &wanted, Judge::Rust, session);
    println!("not given to the Rust: {}; {} more refused by 6", total.reached, total.empty_refused);
    println!("without answer: {} renders, {} of them in the mode slowed", total.still, total.still_slowed);
    let asked = |mode| count >= 100 && wanted.contains(&mode);
    let counts = [("random", "an empty update", total.reached.empty), ("slowed", "a render without answer", total.still_slowed)];
    let mut never: Vec<&str> = counts.iter().filter(|c| asked(c.0) && c.2 == 0).map(|c| c.1).collect();
    never.extend(total.unreached.iter().filter(|_| count >= 1000).map(String::as_str));
    for what in &never {
        println!("never reached: {what}");
    }
    println!("{} compared, {} differ", total.compared, total.differ);
    #[cfg(cover)]
    oracle::cover::write();
    if total.differ != 0 || !never.is_empty() {
        std::process::exit(1);
    }
}
