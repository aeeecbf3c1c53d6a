//! Holds the port to the oracle that follows document 02's rules: an empty update leaves the state alone and tells the positions; where a
//! voice needs no new sample, the fourth point of the cubic is 2 × third - second. Nothing is left out.
//!
//! `rules [SEED [COUNT]]` compares COUNT sessions of each mode, with empty updates and inputs of 1 to 63 bytes among their calls; then
//! 5 × COUNT such updates from any whole state, since no session has a fresh voice with a position, and 5 × COUNT renders from any whole
//! state, every second with memory in ranges. It fails where a case of a rule was never reached.
//! `rules program SEED COUNT FOLDER [empty]` writes inputs of the session program, every third of them damaged, with what it must print for
//! each; with `empty`, empty updates are among the calls, and it fails if there are none.
mod both;
mod cuts;
mod desk;
mod empty;
mod generate;
mod inputs;
mod lends;
mod lively;
mod modes;
mod port;
mod programs;
mod random;
mod ranged;
mod refusals;
mod sectioned;
mod sections;
mod sessions;
mod spoils;
mod title;
use both::Judge;
use cuts::{Cut, cut, numbers};
use empty::Reached;
use generate::{BASE, state};
use lively::lively;
use modes::{MODES, asking, short};
use oracle::Memory;
use oracle::mixer::Mem;
use oracle::ranges::{Ranges, parse, take_reads};
use oracle::renderer::Probe;
use port::{all, place, places, seen, unchanged};
use random::Random;
use ranged::Ranged;

/// Updates from any whole state, three of four empty and one of 1 to 63 bytes: what they reached, and how many differ.
fn updates(r: &mut Random, count: u64) -> (Reached, u64) {
    let (mut reached, mut differ) = (Reached::default(), 0);
    for k in 0..count {
        let before = state(r, 2000);
        let input = if k % 4 == 3 { short(r) } else { vec![] };
        let expected = r.below(0x4000) as u32;
        let oracle = Probe::restore(&before);
        let reply = oracle.update(&input, expected as usize);
        let (mut after, mut out) = (before.clone(), vec![0xa5; reply.len() + r.below(20) as usize]);
        let answer = port::update(&mut after, expected, &input, &mut out);
        let (given, beyond) = out.split_at(reply.len());
        let replied = (answer.number, answer.size) == (0, reply.len()) && given == reply && beyond.iter().all(|&b| b == 0xa5);
        let kept = !input.is_empty() || unchanged(&after, &before);
        if !replied || !kept || seen(&after) != seen(&oracle.slices()) {
            differ += 1;
            if differ < 4 {
                println!("differs: update {k} of {} bytes: answer {answer:?}, reply at {:?}", input.len(), place(given, &reply));
                println!("  {}", places(&after, &oracle.slices()));
            }
        }
        reached.count(&before, &input);
    }
    (reached, differ)
}

/// What renders from any whole state came to.
#[derive(Default)]
struct Renders {
    /// Those by the rule for a fourth point, and those of them with a frame that isn't 0.
    still: u64,
    sounding: u64,
    ranged: Ranged,
    differ: u64,
}

/// Renders from any whole state, every second with memory in ranges.
fn renders(r: &mut Random, count: u64) -> Renders {
    let mut t = Renders::default();
    for k in 0..count {
        let before = lively(r, 2000);
        let (whole, memory) = (k % 2 == 0, r.bytes(2000));
        let cut = if whole { Cut { ranges: parse(&port::whole(BASE, &memory)), slice: memory } } else { cut(r, BASE, &memory, &[0..2000]) };
        let (numbers, bytes) = (numbers(r, &cut.ranges), &cut.slice);
        let mem: &dyn Mem = if whole { &Memory { base: BASE, bytes } } else { &Ranges { ranges: &cut.ranges, bytes } };
        let oracle = Probe::restore(&before);
        oracle::take_rounds();
        let frames: Vec<f32> = oracle.render(mem).into_iter().flatten().collect();
        let (rounds, by_rule) = (oracle::take_rounds(), oracle::take_fourths() > 0);
        let (mut after, mut out) = (before.clone(), vec![0.25; frames.len()]);
        let answer = port::render(&mut after, &numbers, bytes, &mut out);
        let heard = (answer.number, u64::from(answer.rounds)) == (0, rounds) && all(&out) == all(&frames);
        if !heard || seen(&after) != seen(&oracle.slices()) {
            t.differ += 1;
            if t.differ < 4 {
                println!("differs: render {k}: answer {answer:?}, rounds {rounds}, frames at {:?}", place(&all(&out), &all(&frames)));
                println!("  {}", places(&after, &oracle.slices()));
            }
        }
        t.still += u64::from(by_rule);
        t.sounding += u64::from(by_rule && frames.iter().any(|&x| x != 0.0));
        t.ranged.render(&numbers, bytes.len(), &take_reads(), BASE);
    }
    t
}

fn least(counts: &[u64]) -> u64 {
    counts.iter().copied().min().unwrap_or(0)
}

fn main() {
    let args: Vec<String> = std::env::args().skip(1).collect();
    let number = |k: usize, d: u64| args.get(k).map_or(d, |a| a.parse().expect("a number"));
    if args.first().is_some_and(|a| a == "program") {
        let empty = args.get(4).is_some_and(|a| a == "empty");
        let found = programs::write(number(1, 1), number(2, 1000), &args[3], empty);
        println!("{} inputs, {found} empty updates in those that are not damaged", number(2, 1000));
        std::process::exit(i32::from(empty && found == 0));
    }
    let (seed, count) = (number(0, 1), number(1, 2_000));
    let total = sessions::compare(seed, count, &MODES, Judge::Rules, asking);
    let in_sessions = oracle::take_empty();
    let voices = oracle::take_still();
    let (reached, differ) = updates(&mut Random(seed), 5 * count);
    let in_single = oracle::take_empty();
    let rendered = renders(&mut Random(seed), 5 * count);
    let s = &total.reached;
    println!("sessions: {s}; {} more refused by 6; {} inputs of 1 to 63 bytes with a voice in use", total.empty_refused, s.short);
    println!("any whole state: {reached}; {} inputs of 1 to 63 bytes with a voice in use", reached.short);
    println!("the oracle's rule: run and telling a position that isn't 0 in sessions {in_sessions:?}, from any whole state {in_single:?}");
    println!("renders by the rule for a fourth point: in sessions {}, {} with a frame that isn't 0;", total.still, total.still_sounding);
    println!("  from any whole state {} of {}, {} with a frame that isn't 0", rendered.still, 5 * count, rendered.sounding);
    println!("  voices by it in sessions: 16-bit, float, ADPCM, silent {:?}; of 1 to 6 channels {:?}", voices.formats, voices.channels);
    let (crossed, gapped) = rendered.ranged.across();
    println!("reads in renders from any whole state: {crossed} across ranges, {gapped} with a gap");
    let counts = [
        ("an empty update in a session", s.empty.min(in_sessions[0])),
        ("a position that isn't 0 in a session", s.told.min(in_sessions[1])),
        ("a fresh voice in a session", s.fresh),
        ("an unused voice with a position in a session", s.unused_moved),
        ("an input of 1 to 63 bytes in a session", s.short),
        ("an empty update refused by 6", total.empty_refused),
        ("an empty update", reached.empty.min(in_single[0])),
        ("a position that isn't 0", reached.told.min(in_single[1])),
        ("a fresh voice with a position", reached.fresh_moved),
        ("an unused voice with a position", reached.unused_moved),
        ("an input of 1 to 63 bytes", reached.short),
        ("a render by the rule for a fourth point in the mode slowed", total.still_slowed),
        ("a render by it in a session, with a frame that isn't 0", total.still_sounding),
        ("a voice by it of each format", least(&voices.formats)),
        ("a voice by it of each number of channels", least(&voices.channels)),
        ("a render by it from any whole state", rendered.still),
        ("a render by it from any whole state, with a frame that isn't 0", rendered.sounding),
        ("a read across ranges from any whole state", crossed),
        ("a read with a gap from any whole state", gapped),
    ];
    let mut never: Vec<&str> = counts.iter().filter(|c| c.1 == 0).map(|c| c.0).collect();
    never.extend(total.unreached.iter().map(String::as_str));
    for what in &never {
        println!("never reached: {what}");
    }
    let differ = total.differ + differ + rendered.differ;
    println!("{} compared, {differ} differ", total.compared + 10 * count);
    if differ != 0 || !never.is_empty() {
        std::process::exit(1);
    }
}
