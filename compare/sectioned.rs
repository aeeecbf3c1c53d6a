//! What the sections of sessions have reached: which counts, which reasons for a refusal alone and together, and what happened in them.
use crate::modes::Call;
use crate::sections::MOST;
use oracle::mixer::probe::{Slices, WORDS};
use oracle::ranges::Reason;

/// The numbers by which a section is refused, in the sequence in which they are asked.
const NUMBERS: [u32; 4] = [13, 5, 14, 7];
/// Counts by class: the first five are allowed.
const CLASSES: [(&str, u32, u32); 8] = [
    ("of 0", 0, 0),
    ("of 1", 1, 1),
    ("of 2 to 12", 2, 12),
    ("of 1,023", MOST - 1, MOST - 1),
    ("of 1,024", MOST, MOST),
    ("of 1,025", MOST + 1, MOST + 1),
    ("of 1,026 to 2^32 - 2", MOST + 2, u32::MAX - 1),
    ("of 2^32 - 1", u32::MAX, u32::MAX),
];
/// Calls that come one after the other.
const NEIGHBOURS: [&str; 5] = [
    "a section after a section",
    "a section after a single render",
    "a single render after a section",
    "a section after an update",
    "an update after a section",
];

/// What a section was given: its count, its ranges' numbers and memory, and room for so many floats; and how many a render makes.
pub struct Given<'a> {
    pub count: u32,
    pub ranges: &'a [u64],
    pub memory: &'a [u8],
    pub room: usize,
    pub each: usize,
}

impl Given<'_> {
    /// How many floats the section makes.
    pub fn floats(&self) -> usize {
        self.count as usize * self.each
    }
}

/// One of the port's single renders that stand beside a section: its rounds, and the voices' consumed buffers after it.
pub struct Single {
    pub rounds: u32,
    pub consumed: Vec<u32>,
}

/// How many buffers each voice has consumed, as its rows have it.
pub fn consumed(s: &Slices) -> Vec<u32> {
    (0..s.words[4] as usize).map(|k| s.words[10 + k * WORDS + 23]).collect()
}

/// Sections by what they are.
#[derive(Default)]
pub struct Sectioned {
    /// Those that succeed, and those that 14 refuses, by the class of their count.
    classes: [u64; 8],
    /// Refused for reasons of one number alone; by the first of two numbers or more, which is counted with each later one; and for reasons
    /// of all four.
    alone: [u64; 4],
    pairs: [[u64; 4]; 4],
    all_four: u64,
    /// Of no render: refused by 13 and by 5; taken without a float; and with some.
    none_refused: [u64; 2],
    none_bare: u64,
    none_spare: u64,
    /// Refused by 7 for want of a single float; taken with just as many floats as they make; with more.
    one_short: u64,
    just_enough: u64,
    beyond: u64,
    /// Taken with all of memory in one range, and with memory in any others.
    at_once: u64,
    in_ranges: u64,
    /// Those with a frame that isn't 0; with a later render whose frames are not the first's; with rounds in two renders or more; with a
    /// buffer that ends in a render before the last; with a render that is heard and a later one that is silent; with renders that have an
    /// answer and others that have none, or are by the rule for a fourth point.
    sounding: u64,
    differing: u64,
    rounds: u64,
    ending: u64,
    silenced: u64,
    partly: u64,
    neighbours: [u64; 5],
}

impl Sectioned {
    fn class(&mut self, count: u32) {
        let class = CLASSES.iter().position(|&(_, from, to)| (from..=to).contains(&count));
        class.into_iter().for_each(|k| self.classes[k] += 1);
    }

    /// Counts a section that is refused for these reasons.
    pub fn refused(&mut self, given: &Given, reasons: &[Reason]) {
        let has: Vec<usize> = (0..4).filter(|&k| reasons.iter().any(|reason| reason.number() == NUMBERS[k])).collect();
        self.alone[has[0]] += u64::from(has.len() == 1);
        has[1..].iter().for_each(|&later| self.pairs[has[0]][later] += 1);
        self.all_four += u64::from(has.len() == 4);
        match reasons[0].number() {
            13 => self.none_refused[0] += u64::from(given.count == 0),
            5 => self.none_refused[1] += u64::from(given.count == 0),
            14 => self.class(given.count),
            _ => self.one_short += u64::from(given.room + 1 == given.floats()),
        }
    }

    /// Counts a section that succeeds: its frames, what the single renders beside it were from these consumed buffers on, and for each
    /// whether the Rust has no answer to it or it is by document 02's rule.
    pub fn taken(&mut self, given: &Given, frames: &[f32], first: Vec<u32>, singles: &[Single], still: &[bool]) {
        self.class(given.count);
        let (spare, whole) = (given.room > given.floats(), given.ranges.len() == 3 && given.ranges[1..] == [0, given.memory.len() as u64]);
        self.none_bare += u64::from(given.count == 0 && given.room == 0);
        self.none_spare += u64::from(given.count == 0 && spare);
        self.just_enough += u64::from(given.count > 0 && !spare);
        self.beyond += u64::from(given.count > 0 && spare);
        self.at_once += u64::from(given.count > 1 && whole);
        self.in_ranges += u64::from(given.count > 1 && !whole);
        let renders: Vec<&[f32]> = frames.chunks(given.each).collect();
        let heard: Vec<bool> = renders.iter().map(|f| f.iter().any(|&x| x != 0.0)).collect();
        let bits = |f: &[f32]| f.iter().map(|x| x.to_bits()).collect::<Vec<u32>>();
        self.sounding += u64::from(heard.contains(&true));
        self.differing += u64::from(renders.iter().any(|f| bits(f) != bits(renders[0])));
        self.rounds += u64::from(singles.iter().filter(|one| one.rounds > 0).count() > 1);
        let after = singles.split_last().map_or(&first, |(_, before)| before.last().map_or(&first, |one| &one.consumed));
        self.ending += u64::from(*after != first);
        self.silenced += u64::from(heard.iter().skip_while(|&&yes| !yes).any(|&yes| !yes));
        self.partly += u64::from(still.contains(&true) && still.contains(&false));
    }

    /// Counts what stands beside what in a session.
    pub fn session(&mut self, calls: &[Call]) {
        for pair in calls.windows(2) {
            let kind = match pair {
                [Call::Section { .. }, Call::Section { .. }] => 0,
                [Call::Render { .. }, Call::Section { .. }] => 1,
                [Call::Section { .. }, Call::Render { .. }] => 2,
                [Call::Update { .. }, Call::Section { .. }] => 3,
                [Call::Section { .. }, Call::Update { .. }] => 4,
                _ => continue,
            };
            self.neighbours[kind] += 1;
        }
    }

    /// Each thing that the mode `sections` must reach, and how often it did.
    pub fn reached(&self) -> Vec<(String, u64)> {
        let mut all = Vec::new();
        for (k, (name, _, to)) in CLASSES.iter().enumerate() {
            all.push((format!("sections {name} {}", if *to > MOST { "refused by 14" } else { "taken" }), self.classes[k]));
        }
        for (a, first) in NUMBERS.iter().enumerate() {
            all.push((format!("a section refused by {first} alone"), self.alone[a]));
            for (b, second) in NUMBERS.iter().enumerate().skip(a + 1) {
                all.push((format!("by {first} before {second}"), self.pairs[a][b]));
            }
        }
        for (what, n) in [
            ("by 13 before 5, 14 and 7", self.all_four),
            ("a section of 0 refused by 13", self.none_refused[0]),
            ("a section of 0 refused by 5", self.none_refused[1]),
            ("a section of 0 without a float", self.none_bare),
            ("a section of 0 with floats", self.none_spare),
            ("one float short", self.one_short),
            ("just enough floats", self.just_enough),
            ("floats to spare", self.beyond),
            ("a section of two or more with memory at once", self.at_once),
            ("with memory in ranges", self.in_ranges),
            ("a section that is heard", self.sounding),
            ("whose later renders are not the first", self.differing),
            ("with rounds in two renders or more", self.rounds),
            ("in which a buffer ends before the last render", self.ending),
            ("that falls silent", self.silenced),
            ("of which some renders need no new sample", self.partly),
        ] {
            all.push((what.into(), n));
        }
        all.extend(NEIGHBOURS.into_iter().map(String::from).zip(self.neighbours));
        all
    }
}
