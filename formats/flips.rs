//! Each byte of an update, and of the parameters, is changed in turn; what differs then is noted.
use crate::calls::{Answer, Renderer};
use crate::cases::{Call, Case, SAMPLES};
use crate::replies::Replies;
use crate::table::Table;
use crate::title::Input;
use std::collections::BTreeMap;

/// What the changes of one byte of a record showed: whether a bit that counts was seen to, and one that doesn't count too.
#[derive(Clone, Copy, Default)]
pub struct Seen {
    pub read: bool,
    pub acts: bool,
    pub read_amiss: bool,
    pub acts_amiss: bool,
    /// The bits that were seen to be read, and to act, when they alone changed.
    pub bits: (u8, u8),
    pub changes: u64,
}

pub type Tally = BTreeMap<(usize, usize), Seen>;

impl Seen {
    /// A change of the bits `bits` was read, or acted.
    fn note(&mut self, bits: u8, masks: (u8, u8), read: bool, acts: bool) {
        self.changes += 1;
        self.read |= read && bits & masks.0 != 0;
        self.read_amiss |= read && bits & masks.0 == 0;
        self.acts |= acts && bits & masks.1 != 0;
        self.acts_amiss |= acts && bits & masks.1 == 0;
        if bits.is_power_of_two() {
            self.bits.0 |= if read { bits } else { 0 };
            self.bits.1 |= if acts { bits } else { 0 };
        }
    }

    /// No more changes can tell anything.
    fn settled(&self, masks: (u8, u8)) -> bool {
        self.read && self.acts && masks == (0xff, 0xff)
    }
}

/// The other values that a byte is given: each bit changed, 0, 1, all bits, one more and one less.
fn others(b: u8) -> Vec<u8> {
    let all = (0..8).map(|k| b ^ 1 << k).chain([0, 1, 0xff, b.wrapping_add(1), b.wrapping_sub(1)]);
    let mut values: Vec<u8> = Vec::new();
    for v in all {
        if v != b && !values.contains(&v) {
            values.push(v);
        }
    }
    values
}

pub struct Driver<'a> {
    pub table: &'a Table,
    pub memory: &'a [u8],
    pub revision: u32,
    pub parameters: &'a [u8],
    /// The size of reply that each update expects, and that it gets.
    pub expected: u32,
}

impl Driver<'_> {
    fn call(&self, r: &mut Renderer, c: &Call) -> Answer {
        match c {
            Call::Update(input) => self.update(r, input),
            Call::Render => r.render(self.memory, SAMPLES),
        }
    }

    pub fn update(&self, r: &mut Renderer, input: &[u8]) -> Answer {
        r.update(self.expected, input, self.expected as usize)
    }

    /// Calls from a renderer on: all answers, or whether they differ from others.
    fn answers(&self, mut r: Renderer, calls: &[Call]) -> Vec<Answer> {
        calls.iter().map(|c| self.call(&mut r, c)).collect()
    }

    fn differ(&self, mut r: Renderer, calls: &[Call], answers: &[Answer]) -> bool {
        calls.iter().zip(answers).any(|(c, a)| self.call(&mut r, c) != *a)
    }

    /// All bytes of a case's update. What keeps the case from being one is the answer.
    pub fn flip(&self, case: &Case, tally: &mut Tally, replies: &mut Replies) -> Option<String> {
        let mut start = Renderer::open(self.parameters).expect("the parameters are allowed");
        let refused = case.before.iter().any(|c| self.call(&mut start, c).number != 0);
        let mut base = start.clone();
        let reply = self.update(&mut base, &case.input.bytes);
        replies.take(self.parameters, self.revision, &reply.bytes);
        let after = self.answers(base.clone(), &case.after);
        if refused || reply.number != 0 || after.iter().any(|a| a.number != 0) {
            return Some(format!("{}, revision {}: a call is refused", case.name, self.revision));
        }
        let sounds = after.iter().any(|a| a.bits.iter().any(|&b| b << 1 != 0));
        let (mut input, mut r) = (case.input.bytes.clone(), start.clone());
        // From the last byte on: of the mixes, the last is the one whose gains are all heard.
        for at in (0..input.len()).rev() {
            let (record, offset) = case.input.map[at];
            if !case.only.is_empty() && !case.only.contains(&self.table.name(record)) {
                continue;
            }
            let masks = self.table.masks(record, offset, self.revision);
            let seen = tally.entry((record, offset)).or_default();
            let old = input[at];
            for value in others(old) {
                if seen.settled(masks) {
                    break;
                }
                input[at] = value;
                r.copy(&start);
                let answer = self.update(&mut r, &input);
                let told = answer != reply;
                if told {
                    replies.take(self.parameters, self.revision, &answer.bytes);
                }
                let kept = !r.same(&base);
                // The same state gives the same frames and replies.
                let acts = told || kept && (!seen.acts || masks.1 != 0xff) && self.differ(r.clone(), &case.after, &after);
                seen.note(old ^ value, masks, told || kept, acts);
            }
            input[at] = old;
        }
        (!sounds).then(|| format!("{}, revision {}: it is silent", case.name, self.revision))
    }

    /// Whether the table's counts are those of the update's records, and the last record of each kind is read.
    pub fn last_ones(&self, input: &Input) -> Vec<String> {
        let start = Renderer::open(self.parameters).expect("the parameters are allowed");
        let after = |bytes: &[u8]| {
            let mut r = start.clone();
            (self.update(&mut r, bytes), r)
        };
        let (reply, base) = after(&input.bytes);
        let mut wrong = Vec::new();
        for &kind in &self.table.update[1..] {
            let r = &self.table.records[kind];
            let Some(n) = self.table.count(kind, self.parameters).filter(|_| !r.open && self.revision >= r.least) else { continue };
            let places: Vec<usize> = (0..input.bytes.len()).filter(|&at| input.map[at] == (kind, 0)).collect();
            let differs = |at: usize, value: u8| {
                let mut bytes = input.bytes.clone();
                bytes[at] = value;
                let (a, r) = after(&bytes);
                a != reply || !r.same(&base)
            };
            let matters = |at: usize| others(input.bytes[at]).into_iter().any(|value| differs(at, value));
            let (have, read) = (places.len(), places.last().is_some_and(|&at| (at..at + r.size).any(matters)));
            if have != n || !read {
                let number = self.revision;
                wrong.push(format!("{}, revision {number}: {n} by the table, {have} in the update; the last is read: {read}", r.name));
            }
        }
        wrong
    }

    /// All bytes of the parameters, and some behind them: what is opened, and a session from there.
    pub fn flip_parameters(&self, session: &[Call], tally: &mut Tally) {
        let base = Renderer::open(self.parameters).expect("the parameters are allowed");
        let answers = self.answers(base.clone(), session);
        let record = self.table.place("parameters");
        let mut p = [self.parameters, &[0; 8]].concat();
        for at in 0..p.len() {
            let place = if at < self.parameters.len() { (record, at) } else { (self.table.behind(), at) };
            let masks = self.table.masks(place.0, at, self.revision);
            let old = p[at];
            for value in others(old) {
                p[at] = value;
                let (read, acts) = match Renderer::open(&p) {
                    Err(_) => (true, true),
                    Ok(r) => (!r.same(&base), self.differ(r, session, &answers)),
                };
                tally.entry(place).or_default().note(old ^ value, masks, read || acts, acts);
            }
            p[at] = old;
        }
    }
}
