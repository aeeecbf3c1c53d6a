//! A session on both sides, the port and the oracle: after each call its answer, the reply or the frames and rounds, and the whole state.
use crate::empty::{self, Reached};
use crate::modes::{Call, Open, Session};
use crate::port::{self, Lengths, Render, Update, all, place, places, seen, unchanged};
use crate::ranged::Ranged;
use crate::sectioned::{Given, Sectioned, Single, consumed};
use oracle::mixer::probe::Slices;
use oracle::ranges::take_reads;
use oracle::session::Session as Oracle;

/// What is linked as the oracle: the Rust, which isn't given empty updates and has no answer to a render in which a voice needs no new
/// sample; or the Rust with document 02's rules, which is given all and answers all.
#[allow(dead_code)]
#[derive(Clone, Copy, PartialEq)]
pub enum Judge {
    Rust,
    Rules,
}

#[derive(Default)]
pub struct Tally {
    pub opens: u64,
    /// Calls by their answer.
    pub refused: [u64; 15],
    pub updates: u64,
    pub renders: u64,
    /// Sections, and the renders of those that succeed.
    pub sections: u64,
    pub joined: u64,
    pub silent: u64,
    pub sounding: u64,
    pub nans: u64,
    pub rounds: u64,
    /// Renders in which a voice needs no new sample, and those of them with an answer in which a frame isn't 0.
    pub still: u64,
    pub still_sounding: u64,
    /// Empty updates that are refused; `reached` counts those that succeed.
    pub empty_refused: u64,
    pub reached: Reached,
    pub ranged: Ranged,
    pub sectioned: Sectioned,
}

impl Tally {
    /// Counts the frames of a render, unless the Rust has no answer to it.
    fn heard(&mut self, frames: &[f32], unanswered: bool, by_rule: bool) {
        self.still += u64::from(unanswered || by_rule);
        if !unanswered {
            let sounding = frames.chunks(2).filter(|f| f[0] != 0.0 || f[1] != 0.0).count() as u64;
            self.sounding += sounding;
            self.silent += frames.len() as u64 / 2 - sounding;
            self.nans += frames.iter().filter(|x| x.is_nan()).count() as u64;
            self.still_sounding += u64::from(by_rule && sounding > 0);
        }
    }
}

/// An open on both sides: what it begins, or nothing where it is refused.
fn open(o: &Open, t: &mut Tally) -> Result<Option<(Slices, Oracle)>, String> {
    t.opens += 1;
    let lengths = oracle::session::lengths(&o.parameters);
    let n = lengths.unwrap_or_default();
    let (number, [words, longs, floats, contexts, history]) = (lengths.err().unwrap_or(0), n);
    let answer = port::lengths(&o.parameters);
    if answer != (Lengths { number, words, longs, floats, contexts, history }) {
        return Err(format!("lengths {answer:?}, not {lengths:?}"));
    }
    let given: [usize; 5] = std::array::from_fn(|k| (n[k] as i64 + o.off[k]).max(0) as usize);
    // What the slices held before is of no account.
    let mut s = Slices {
        words: vec![0xa5a5_a5a5; given[0]],
        longs: vec![0xa5a5_a5a5_a5a5; given[1]],
        floats: vec![0.25; given[2]],
        contexts: vec![0xa5a5; given[3]],
        history: vec![0.25; given[4]],
    };
    let before = s.clone();
    let number = port::open(&o.parameters, &mut s);
    match Oracle::open(&o.parameters, given) {
        Err(refusal) => {
            t.refused[refusal as usize] += 1;
            if number != refusal || !unchanged(&s, &before) {
                return Err(format!("open {number}, not {refusal}, or it changes the state"));
            }
            Ok(None)
        }
        Ok(session) => {
            if number != 0 || seen(&s) != seen(&session.slices()) {
                return Err(format!("open {number}: {}", places(&s, &session.slices())));
            }
            Ok(Some((s, session)))
        }
    }
}

/// The Rust alone has no rule for a fourth point, and the Rust with the rules has an answer to every render.
fn named(judge: Judge, unanswered: bool, by_rule: bool) -> Result<(), String> {
    if (judge == Judge::Rust && by_rule) || (judge == Judge::Rules && unanswered) {
        return Err("the oracle is not the judge that is named".into());
    }
    Ok(())
}

/// The port's single renders from a state, as many as a section on it made: the section gave their frames and rounds, and left what they
/// leave, to the bit.
fn singles(given: &Given, state: &Slices, left: &Slices, frames: &[f32], rounds: u32) -> Result<Vec<Single>, String> {
    let (mut s, mut all) = (state.clone(), Vec::new());
    for (k, joined) in frames.chunks(given.each).enumerate() {
        let mut single = vec![0.25; joined.len()];
        let answer = port::render(&mut s, given.ranges, given.memory, &mut single);
        let differs = single.iter().zip(joined).position(|(x, y)| x.to_bits() != y.to_bits());
        if answer.number != 0 || differs.is_some() {
            return Err(format!("single render {k} of a section's answers {}; frames at {differs:?}", answer.number));
        }
        all.push(Single { rounds: answer.rounds, consumed: consumed(&s) });
    }
    let sum: u32 = all.iter().map(|one| one.rounds).sum();
    if all.len() != given.count as usize || sum != rounds || !unchanged(&s, left) {
        return Err(format!("{} single renders of a section's: {sum} rounds, not {rounds}, or {}", all.len(), places(left, &s)));
    }
    Ok(all)
}

/// A section on both sides, and the port's single renders beside it. Frames are compared render by render, but for those to which the Rust
/// has no answer. Gives the answer's number.
fn section(given: &Given, s: &mut Slices, oracle: &mut Oracle, judge: Judge, t: &mut Tally) -> Result<u32, String> {
    let (before, mut out) = (s.clone(), vec![0.25; given.room]);
    let &Given { count, ranges, memory, room, each } = given;
    let answer = port::section(s, count, ranges, memory, &mut out);
    let reasons = oracle.reasons(ranges, memory.len(), count, room);
    let result = oracle.section(count, ranges, memory, room);
    take_reads();
    let made = match result {
        Err(number) => {
            if answer != (Render { number, rounds: 0 }) || out.iter().any(|&x| x != 0.25) {
                return Err(format!("section of {count} {answer:?}, not {number}, or it writes frames"));
            }
            t.sectioned.refused(given, &reasons);
            return Ok(number);
        }
        Ok(made) => made,
    };
    if made.frames.len() != given.floats() || made.unanswered.len() != count as usize {
        return Err(format!("the oracle gives {} floats", made.frames.len()));
    }
    let should = Render { number: 0, rounds: made.rounds as u32 };
    let (frames, beyond) = out.split_at(given.floats().min(room));
    if answer != should || frames.len() < given.floats() || beyond.iter().any(|&x| x != 0.25) {
        return Err(format!("section of {count} {answer:?}, not {should:?}, or it writes beyond its frames"));
    }
    for (k, (ours, theirs)) in frames.chunks(each).zip(made.frames.chunks(each)).enumerate() {
        let (unanswered, by_rule) = (made.unanswered[k], made.by_rule[k]);
        named(judge, unanswered, by_rule)?;
        if let Some(at) = place(&all(ours), &all(theirs)).filter(|_| !unanswered) {
            return Err(format!("render {k} of a section of {count}: frames at {at}"));
        }
        t.heard(theirs, unanswered, by_rule);
    }
    let beside = singles(given, &before, s, frames, answer.rounds)?;
    let still: Vec<bool> = made.unanswered.iter().zip(&made.by_rule).map(|(a, b)| *a || *b).collect();
    t.sectioned.taken(given, frames, consumed(&before), &beside, &still);
    t.rounds += made.rounds;
    t.joined += u64::from(count);
    Ok(0)
}

/// A call on both sides. The title's memory stands at a base.
fn call(c: &Call, base: u64, s: &mut Slices, oracle: &mut Oracle, judge: Judge, t: &mut Tally) -> Result<(), String> {
    let before = s.clone();
    let room = |needed: usize, spare: i64| (needed as i64 + spare).max(0) as usize;
    let (refusal, kept) = match c {
        Call::Update { expected, input, spare } => {
            t.updates += 1;
            let room = room(oracle.reply_length(*expected), *spare);
            let mut out = vec![0xa5; room];
            let answer = port::update(s, *expected, input, &mut out);
            let result = if input.is_empty() && judge == Judge::Rust {
                oracle.question_6(*expected, room).map(|()| empty::reply(&before, *expected))
            } else {
                oracle.update(*expected, input, room)
            };
            let reply = result.as_deref().unwrap_or_default();
            if result.is_ok() && reply.len() != oracle.reply_length(*expected) {
                return Err(format!("the oracle gives {} bytes", reply.len()));
            }
            let should = Update { number: result.as_ref().err().copied().unwrap_or(0), size: reply.len() };
            let (given, beyond) = out.split_at(reply.len().min(room));
            if answer != should || place(given, reply).is_some() || beyond.iter().any(|&b| b != 0xa5) {
                return Err(format!("update {answer:?}, not {should:?}; reply at {:?}", place(given, reply)));
            }
            if should.number == 0 {
                t.reached.count(&before, input);
            }
            t.empty_refused += u64::from(should.number != 0 && input.is_empty());
            (should.number, input.is_empty())
        }
        Call::Render { ranges, memory, spare } => {
            t.renders += 1;
            let room = room(2 * oracle.samples(), *spare);
            let mut out = vec![0.25; room];
            let answer = port::render(s, ranges, memory, &mut out);
            let reasons = oracle.reasons(ranges, memory.len(), 1, room);
            let result = oracle.render(ranges, memory, room);
            let reads = take_reads();
            let (frames, rounds) = result.as_ref().map_or((&[][..], 0), |(f, n)| (&f[..], *n));
            if result.is_ok() && frames.len() != 2 * oracle.samples() {
                return Err(format!("the oracle gives {} floats", frames.len()));
            }
            let (unanswered, by_rule) = (oracle::take_no_answers() > 0, oracle::take_fourths() > 0);
            named(judge, unanswered, by_rule)?;
            let should = Render { number: result.as_ref().err().copied().unwrap_or(0), rounds: rounds as u32 };
            let (given, beyond) = out.split_at(frames.len().min(room));
            let differs = if unanswered { None } else { place(&all(given), &all(frames)) };
            if answer != should || differs.is_some() || beyond.iter().any(|&x| x != 0.25) {
                return Err(format!("render {answer:?}, not {should:?}; frames at {differs:?}"));
            }
            match &result {
                Ok(_) => t.ranged.render(ranges, memory.len(), &reads, base),
                Err(_) => t.ranged.refused(ranges, memory.len(), &reasons),
            }
            t.rounds += rounds;
            t.heard(frames, unanswered, by_rule);
            (should.number, false)
        }
        Call::Section { count, ranges, memory, spare } => {
            t.sections += 1;
            let each = 2 * oracle.samples();
            let given = Given { count: *count, ranges, memory, room: room(*count as usize * each, *spare), each };
            (section(&given, s, oracle, judge, t)?, *count == 0)
        }
    };
    t.refused[refusal as usize] += 1;
    if (refusal != 0 || kept) && !unchanged(s, &before) {
        return Err(format!("answered {refusal}, and the state changes: {}", places(s, &before)));
    }
    if seen(s) != seen(&oracle.slices()) {
        return Err(places(s, &oracle.slices()));
    }
    Ok(())
}

/// A whole session on both sides, or the call at which they differ and how.
pub fn run(session: &Session, judge: Judge, t: &mut Tally) -> Result<(), (usize, String)> {
    let mut state = None;
    for o in &session.opens {
        state = open(o, t).map_err(|e| (0, e))?;
        if state.is_some() {
            break;
        }
    }
    let (mut slices, mut oracle) = state.expect("the last open succeeds");
    t.sectioned.session(&session.calls);
    for (k, c) in session.calls.iter().enumerate() {
        call(c, session.base, &mut slices, &mut oracle, judge, t).map_err(|e| (k, e))?;
    }
    Ok(())
}
