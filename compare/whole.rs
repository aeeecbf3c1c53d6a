//! Holds question 4, "is the state whole?", to a list of its clauses (clauses.rs): of each state the list says whether it is whole, and an
//! update, a render and a section through the C interface must answer 0 or 4 accordingly, and by 4 change nothing.
//!
//! `whole [SEED [COUNT]]` tries COUNT states: each clause broken alone and with each other one, and at the limits of what it allows, in the
//! first, a middle and the last row; with ranges, memory, counts, reply and frames that questions 13, 5, 14, 6 and 7 refuse, and without;
//! updates with an empty input and sections of no render among them. It fails where a clause, a row, a pair or an answer was never hit, for
//! which a COUNT below 200,000 may be too small.
//! `whole wrong` tries the list with one wrong entry, for many of them: each must be noticed.
mod clauses;
#[allow(dead_code)]
mod random;
#[allow(dead_code)]
#[path = "../bindings/rust/src/sys/mod.rs"]
mod sys;
mod whole_calls;
mod whole_states;
mod whole_tally;
mod wrong_clauses;
use clauses::{Clause, PARAMETERS, SAMPLES, State, broken, right_lengths};
use random::Random;
use std::time::Instant;
use sys::{jeqlluna_lengths, jeqlluna_open};
use whole_calls::{Lent, render, update};
use whole_states::{Aim, Size, make};
use whole_tally::Tally;

/// Where sample memory must end at the latest.
const END: u64 = 1 << 63;
/// How many renders a section may have.
const MOST: u32 = 1024;
/// A reply slice of so many bytes is long enough for every update that is tried.
const REPLY: usize = 20_000;

/// One run: the list, whether differences are only counted, what was counted, and the state that the calls change.
struct Run<'a> {
    list: &'a [Clause],
    quiet: bool,
    tally: Tally,
    after: State,
}

impl Run<'_> {
    /// Counts a call, and reports it if it isn't as it should be.
    fn count(&mut self, right: bool, what: &str, s: &State, found: u64) {
        self.tally.compared += 1;
        if !right {
            self.tally.differ += 1;
            if self.tally.differ < 6 && !self.quiet {
                let names: Vec<&str> = (0..self.list.len()).filter(|k| found >> k & 1 != 0).map(|k| &*self.list[k].name).collect();
                println!("differs: {what}; broken {names:?}; lengths {:?}; parameters {:x?}", s.lengths(), s.words.get(..PARAMETERS));
            }
        }
    }

    /// Whether the state is as it was before the call.
    fn kept(&self, s: &State) -> bool {
        self.after == *s
    }

    /// A refused update: the number as asked, no length, and nothing changes.
    fn no_update(&mut self, s: &State, found: u64, number: u32, expected: u32, input: &[u8], room: usize) {
        let mut reply = vec![0xa5; room];
        self.after.clone_from(s);
        let u = update(&mut self.after, expected, input, &mut reply);
        let right = (u.number, u.size) == (number, 0) && self.kept(s) && reply.iter().all(|&b| b == 0xa5);
        self.tally.answers[number as usize] += 1;
        self.tally.empty[number as usize] += u64::from(input.is_empty());
        self.count(right, &format!("an update that should answer {number} answers {}", u.number), s, found);
    }

    /// A refused render or section likewise.
    fn no_render(&mut self, s: &State, found: u64, number: u32, lent: Lent) {
        let mut frames = vec![0x7f80_5a5a; lent.room];
        self.after.clone_from(s);
        let a = render(&mut self.after, &lent, &mut frames);
        let right = (a.number, a.rounds) == (number, 0) && self.kept(s) && frames.iter().all(|&x| x == 0x7f80_5a5a);
        self.tally.answers[number as usize] += 1;
        self.tally.sections[number as usize] += u64::from(lent.count.is_some());
        self.count(right, &format!("{} that should answer {number} answers {}", lent.name(), a.number), s, found);
    }

    /// An update that succeeds leaves a whole state, and what lies behind the reply; an empty one leaves the state as it was. The reply's
    /// length is the answer.
    fn yes_update(&mut self, s: &State, expected: u32, input: &[u8], room: usize) -> usize {
        let mut reply = vec![0xa5; room];
        self.after.clone_from(s);
        let u = update(&mut self.after, expected, input, &mut reply);
        let whole = broken(self.list, &self.after) == 0 && (!input.is_empty() || self.kept(s));
        let right = u.number == 0 && u.size <= room && reply[u.size..].iter().all(|&b| b == 0xa5) && whole;
        self.tally.answers[0] += 1;
        self.tally.empty[0] += u64::from(input.is_empty());
        self.count(right, &format!("an update of a whole state answers {}", u.number), s, 0);
        u.size
    }

    /// A render or section that succeeds likewise; a section of no render leaves the state as it was.
    fn yes_render(&mut self, s: &State, lent: Lent) {
        let mut frames = vec![0x7f80_5a5a; lent.room];
        self.after.clone_from(s);
        let (a, made) = (render(&mut self.after, &lent, &mut frames), lent.count.unwrap_or(1) as usize * frame_floats(s));
        let whole = broken(self.list, &self.after) == 0 && (made > 0 || self.kept(s));
        let right = a.number == 0 && frames[made..].iter().all(|&x| x == 0x7f80_5a5a) && whole;
        self.tally.answers[0] += 1;
        self.tally.sections[0] += u64::from(lent.count.is_some());
        self.count(right, &format!("{} of a whole state answers {}", lent.name(), a.number), s, 0);
    }

    /// A state that the list says is broken: 4, whatever questions 13, 5, 14, 6 and 7 would say.
    fn refused(&mut self, r: &mut Random, s: &State, found: u64) {
        let (input, memory) = (some_bytes(r, 80), some_bytes(r, 64));
        let frames = frame_floats(s);
        let [far, short, less, astray] = [(); 4].map(|()| r.below(4) == 0);
        for (k, yes) in [far, short, less, astray].into_iter().enumerate() {
            self.tally.before[k] += u64::from(yes);
        }
        self.no_update(s, found, 4, r.next() as u32, &input, if short { r.below(64) as usize } else { REPLY });
        let base = if far { far_base(r, memory.len()) } else { r.below(END - 64) };
        let room = if less { frames.saturating_sub(1 + r.below(3) as usize) } else { frames + r.below(3) as usize };
        let ranges = &if astray { not_laid(r, base, &memory) } else { whole(base, &memory) };
        self.no_render(s, found, 4, Lent { count: None, ranges, memory: &memory, room });
        let count = [0, 1, 2, MOST, MOST + 1, u32::MAX][r.below(6) as usize];
        self.tally.large += u64::from(count > MOST);
        self.no_render(s, found, 4, Lent { count: Some(count), ranges, memory: &memory, room });
    }

    /// A state that the list says is whole: 0, or 13, 5, 14, 6 and 7 as these questions say.
    fn taken(&mut self, r: &mut Random, s: &State) {
        let (input, memory) = (some_bytes(r, 300), some_bytes(r, 64));
        let (expected, frames) = (r.below(0x2000) as u32, frame_floats(s));
        let size = self.yes_update(s, expected, &input, REPLY);
        let base = [0, 0x10000, END - memory.len() as u64][r.below(3) as usize];
        let near = Lent { count: None, ranges: &whole(base, &memory), memory: &memory, room: frames + r.below(3) as usize };
        self.yes_render(s, near);
        if r.below(4) == 0 && size > 0 {
            self.yes_update(s, expected, &input, size);
            self.no_update(s, 0, 6, expected, &input, [size - 1, 0, r.below(size as u64) as usize][r.below(3) as usize]);
            let short = frames.saturating_sub(1 + r.below(3) as usize);
            let far = far_base(r, memory.len());
            let base = [base, far][r.below(2) as usize];
            let (distant, astray) = (whole(far, &memory), not_laid(r, base, &memory));
            self.no_render(s, 0, 7, Lent { room: short, ..near });
            self.no_render(s, 0, 5, Lent { ranges: &distant, room: if r.below(2) == 0 { short } else { frames }, ..near });
            self.no_render(s, 0, 13, Lent { ranges: &astray, room: if r.below(2) == 0 { short } else { frames }, ..near });
            let count = r.below(3) as u32;
            let joined = Lent { count: Some(count), room: count as usize * frames + r.below(3) as usize, ..near };
            let many = Lent { count: Some([MOST + 1, MOST + 2, u32::MAX][r.below(3) as usize]), ..joined };
            self.yes_render(s, joined);
            self.no_render(s, 0, 7, Lent { count: Some(count + 1), room: count as usize * frames + short, ..near });
            self.no_render(s, 0, 14, many);
            self.no_render(s, 0, 5, Lent { ranges: &distant, ..if r.below(2) == 0 { many } else { joined } });
            self.no_render(s, 0, 13, Lent { ranges: &astray, ..if r.below(2) == 0 { many } else { joined } });
        }
    }

    /// The parameters of a state given to the length call and to an open: they agree with the list, and what an open makes is whole.
    fn opened(&mut self, r: &mut Random, s: &State) {
        if s.words.len() < PARAMETERS {
            return;
        }
        let mut bytes = vec![0; 0x34];
        for (k, at) in [0x00, 0x04, 0x08, 0x0c, 0x10, 0x14, 0x18, 0x24, 0x28, 0x30].into_iter().enumerate() {
            bytes[at..at + 4].copy_from_slice(&s.words[k].to_le_bytes());
        }
        let wrong = |k: &usize| self.list.iter().any(|c| c.field == clauses::Field::Parameter(*k) && !c.allows(s, 0, s.words[*k]));
        let number = if wrong(&SAMPLES) { 1 } else { 2 * u32::from((2..9).any(|k| wrong(&k))) };
        let l = unsafe { jeqlluna_lengths(bytes.as_ptr(), bytes.len()) };
        let lengths = [l.words, l.longs, l.floats, l.contexts, l.history].map(|n| n as u64);
        let right = l.number == number && lengths == if number == 0 { right_lengths(&s.words) } else { [0; 5] };
        self.count(right, &format!("the length call answers {}", l.number), s, 0);
        self.after.clone_from(s);
        let t = &mut self.after;
        let n = unsafe {
            jeqlluna_open(
                bytes.as_ptr(), bytes.len(), t.words.as_mut_ptr(), t.words.len(), t.longs.as_mut_ptr(), t.longs.len(),
                t.floats.as_mut_ptr().cast(), t.floats.len(), t.contexts.as_mut_ptr(), t.contexts.len(), t.history.as_mut_ptr().cast(),
                t.history.len(),
            )
        };
        let fits = s.lengths() == right_lengths(&s.words);
        let number = if number == 0 && !fits { 3 } else { number };
        let right = n == number && if n == 0 { broken(self.list, &self.after) == 0 } else { self.kept(s) };
        self.count(right, &format!("an open that should answer {number} answers {n}"), s, 0);
        self.tally.opens[number as usize] += 1;
        if n == 0 {
            let made = self.after.clone();
            self.taken(r, &made);
        }
    }
}

/// How many floats the frames of a render have; a few where the parameters can't be meant.
fn frame_floats(s: &State) -> usize {
    2 * s.words.get(SAMPLES).map_or(0, |&n| n.min(300)) as usize
}

/// Up to so many bytes.
fn some_bytes(r: &mut Random, most: u64) -> Vec<u8> {
    let n = r.below(most) as usize;
    r.bytes(n)
}

/// A base from which so many bytes of memory reach past 2^63.
fn far_base(r: &mut Random, length: usize) -> u64 {
    [END - length as u64 + 1, u64::MAX, END + 1 + r.below(END - 1), u64::MAX - length as u64][r.below(4) as usize]
}

/// The numbers of one range: all of memory at a base.
fn whole(base: u64, memory: &[u8]) -> Vec<u64> {
    vec![base, 0, memory.len() as u64]
}

/// Ranges that question 13 refuses, from a base on: 17 of them, a part outside memory, or a base below the end before it.
fn not_laid(r: &mut Random, base: u64, memory: &[u8]) -> Vec<u64> {
    let length = memory.len() as u64;
    match r.below(3) {
        0 => [base, length, 0].repeat(17),
        1 => vec![base, 1, length],
        _ => vec![base.max(1), 0, length, base.max(1).wrapping_add(length).saturating_sub(1), 0, 0],
    }
}

/// Tries so many states by a list; with `first` up to the first difference.
fn run(list: &[Clause], seed: u64, count: u64, first: bool) -> Tally {
    let r = &mut Random(seed);
    let empty = State { words: vec![], longs: vec![], floats: vec![], contexts: vec![], history: vec![] };
    let mut run = Run { list, quiet: first, tally: Tally::new(list.len()), after: empty };
    for turn in 0..count {
        let n = list.len() as u64;
        let (a, b) = (r.below(n) as usize, r.below(n) as usize);
        let aims = match turn % 16 {
            0 => vec![],
            1..5 => vec![Aim { clause: a, inside: true }],
            5..9 => vec![Aim { clause: a, inside: false }],
            9 => vec![Aim { clause: a, inside: true }, Aim { clause: b, inside: false }],
            _ => vec![Aim { clause: a, inside: false }, Aim { clause: b, inside: false }],
        };
        let size = match r.below(400) {
            0 => Size::Largest,
            1..5 => Size::Any,
            _ => Size::Small,
        };
        let (s, hits) = make(list, r, &aims, size);
        let found = broken(list, &s);
        run.tally.state(found, &hits, matches!(size, Size::Largest));
        if found == 0 { run.taken(r, &s) } else { run.refused(r, &s, found) }
        if turn % 32 == 5 {
            run.opened(r, &s);
        }
        if first && run.tally.differ != 0 {
            break;
        }
    }
    run.tally
}

/// Each wrong list in turn, up to the first state at which it is noticed.
fn wrong() -> bool {
    let (mut noticed, mut missed) = (0, 0);
    for (name, list) in wrong_clauses::wrong_lists() {
        let tally = run(&list, 1, 200_000, true);
        let found = tally.differ != 0;
        println!("{}: {name} ({} states)", if found { "noticed" } else { "MISSED" }, tally.states);
        (noticed, missed) = (noticed + u64::from(found), missed + u64::from(!found));
    }
    println!("{noticed} noticed, {missed} missed");
    missed == 0
}

fn main() {
    let args: Vec<String> = std::env::args().skip(1).collect();
    if args.first().is_some_and(|a| a == "wrong") {
        std::process::exit(i32::from(!wrong()));
    }
    let number = |k: usize, d| args.get(k).map_or(d, |a| a.parse().expect("a number"));
    let (seed, count, start) = (number(0, 1), number(1, 2_000_000), Instant::now());
    let list = clauses::list();
    let tally = run(&list, seed, count, false);
    let missing = tally.print(&list);
    println!("seed {seed}, {} seconds", start.elapsed().as_secs());
    println!("{} compared, {} differ", tally.compared, tally.differ);
    std::process::exit(i32::from(tally.differ != 0 || missing));
}
