//! Holds the merge of two update blocks, through the C interface, to one in plain Rust (plain_merge.rs), since kirikae has none: number,
//! size and every byte of the output, beyond the block and after a refusal too. And holds the sentence on positions to kirikae itself
//! (merge_plays.rs): each voice of the merged block plays as in its own.
//!
//! `merge [SEED [COUNT]]`: every length of either block up to a little more than a header, pairs cut at every length, every set of reasons
//! to refuse, sizes that lie, parameters of every length, COUNT pairs of all kinds; then COUNT / 5 merges played. It fails where a kind of
//! case was never reached.
//! `merge wrong`: the same with one error in the plain merge, for many of them: each must be noticed. Of some a voice would play
//! otherwise: of these the plain merge's block is played, and the sentence on positions must notice them too.
mod desk;
#[allow(dead_code)]
mod generate;
#[allow(dead_code)]
mod inputs;
mod merge_blocks;
mod merge_cases;
mod merge_kinds;
mod merge_plays;
mod merge_states;
mod merge_tally;
mod plain_merge;
#[allow(dead_code)]
mod random;
#[allow(dead_code)]
#[path = "../bindings/rust/src/sys/mod.rs"]
mod sys;
#[allow(dead_code)]
mod title;
mod wrong_merges;
use merge_plays::Plays;
use merge_tally::Tally;
use plain_merge::Call;
use random::Random;
use std::time::Instant;
use sys::{Merged, jeqlluna_merge};
use wrong_merges::{HEARD, WRONG, Wrong};

/// What an output holds before a call.
const MARK: u8 = 0xa5;

/// The port's merge.
pub fn port(parameters: &[u8], title: &[u8], click: &[u8], output: &mut [u8]) -> Merged {
    unsafe {
        jeqlluna_merge(
            parameters.as_ptr(), parameters.len(), title.as_ptr(), title.len(), click.as_ptr(), click.len(), output.as_mut_ptr(),
            output.len(),
        )
    }
}

/// One run: what is wrong in the plain merge, and what was counted.
pub struct Run {
    wrong: Wrong,
    pub tally: Tally,
}

impl Run {
    /// Whether the run may end: a wrong variant was noticed.
    pub fn over(&self) -> bool {
        self.wrong != Wrong::Nothing && self.tally.differ != 0
    }

    /// One call with an output of so many bytes.
    pub fn call(&mut self, parameters: &[u8], title: &[u8], click: &[u8], room: usize) {
        let before = vec![MARK; room];
        let mut output = before.clone();
        let r = port(parameters, title, click, &mut output);
        let call = Call { parameters, title, click, output: &before };
        let due = plain_merge::merge(&call, self.wrong);
        self.tally.compared += 1;
        if (r.number, r.size) != (due.number, due.size) || output != due.output {
            self.tally.differ += 1;
            if self.tally.differ < 6 && self.wrong == Wrong::Nothing {
                let place = output.iter().zip(&due.output).position(|(a, b)| a != b);
                println!("differs: parameters {parameters:02x?}\n  title {title:02x?}\n  click {click:02x?}");
                println!("  to {room} bytes: {r:?}, due {} and {}; the first byte that differs: {place:x?}", due.number, due.size);
            }
        }
        if self.wrong == Wrong::Nothing {
            self.tally.call(&call, &due);
        }
    }
}

/// A run over all kinds of case; with a wrong variant up to the kind that notices it.
fn run(wrong: Wrong, seed: u64, count: u64) -> Tally {
    let r = &mut Random(seed);
    let mut run = Run { wrong, tally: Tally::new() };
    for cases in merge_cases::ALL {
        if !run.over() {
            cases(&mut run, r, count);
        }
    }
    run.tally
}

/// Each wrong variant in turn, and by positions those that are heard.
fn wrong() -> bool {
    let (mut noticed, mut missed) = (0, 0);
    let mut told = |found: bool, what: String| {
        println!("{}: {what}", if found { "noticed" } else { "MISSED" });
        (noticed, missed) = (noticed + u64::from(found), missed + u64::from(!found));
    };
    for wrong in WRONG {
        let tally = run(wrong, 1, 20_000);
        told(tally.differ != 0, format!("{wrong:?} ({} comparisons)", tally.compared));
    }
    for wrong in HEARD {
        let plays = Plays::run(wrong, 1, 20_000);
        told(plays.differ != 0, format!("{wrong:?}, by positions ({} merges)", plays.merges));
    }
    println!("{noticed} noticed, {missed} missed");
    missed == 0
}

fn main() {
    let args: Vec<String> = std::env::args().skip(1).collect();
    if args.first().is_some_and(|a| a == "wrong") {
        std::process::exit(i32::from(!wrong()));
    }
    let number = |k: usize, d| args.get(k).map_or(d, |a| a.parse().expect("a number"));
    let (seed, count, start) = (number(0, 1), number(1, 100_000), Instant::now());
    let tally = run(Wrong::Nothing, seed, count);
    let mut missing = tally.print();
    let plays = Plays::run(Wrong::Nothing, seed, count / 5);
    missing |= plays.print();
    println!("seed {seed}, {} seconds", start.elapsed().as_secs());
    println!("{} calls, {} merged blocks played", tally.compared, plays.merges);
    let differ = tally.differ + plays.differ;
    println!("{} compared, {differ} differ", tally.compared + plays.compared);
    std::process::exit(i32::from(differ != 0 || missing));
}
