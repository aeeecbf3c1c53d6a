//! The sentence on positions, in kirikae: from a state that random calls made, each voice of a merged block plays as in the block that it
//! came from. Held together are its words, longs and floats, which are all of it but sound, after the update and after each of up to five
//! renders; its bytes of the reply; and each render's rounds, which in the merged block are those of the title's and the click's together.
//! A voice in use in neither is out of use. The renders have the same ranges; in every second trial the sample bytes differ.
use crate::generate::BASE;
use crate::merge_states::{blocks, desk, state};
use crate::plain_merge::{self, Block, Call, length};
use crate::port;
use crate::random::{Random, bits};
use crate::title::Title;
use crate::wrong_merges::Wrong;
use oracle::mixer::probe::{FLOATS, LONGS, Slices, WORDS};
use oracle::renderer::Probe;
use oracle::{Memory, take_rounds};
use std::collections::BTreeMap;

/// Renders behind an update at most.
const RENDERS: usize = 5;

/// Kinds of merge, render and voice, each of which must be reached.
const KINDS: &[&str] = &[
    "merges played",
    "of a damaged title",
    "of a damaged click",
    "of an empty title",
    "of an empty click",
    "of a title of less than a header",
    "of 64 voices",
    "from a state just opened",
    "with voices of the title and of the click",
    "renders",
    "renders with rounds of the title and of the click",
    "renders with other sample bytes",
    "renders with other sample bytes that take rounds",
    "refused",
    "voices of the title",
    "voices of the click",
    "voices of neither",
    "voices of neither that were in use",
    "voices that are new",
    "voices that go on",
    "voices that move",
    "voices of the click that move",
    "voices that come to the end of a buffer",
    "voices that are flushed",
    "voices that stop",
    "voices that pause",
    "voices of 16-bit PCM",
    "voices of float PCM",
    "voices of ADPCM",
    "voices of silence",
];

/// What was compared.
pub struct Plays {
    wrong: Wrong,
    /// How many merges there should be.
    count: u64,
    kinds: BTreeMap<&'static str, u64>,
    /// Merges by how many renders came behind.
    renders: [u64; RENDERS + 1],
    pub merges: u64,
    pub compared: u64,
    pub differ: u64,
}

/// Places among a voice's words and longs.
const IN_USE: usize = 0;
const FLUSH: usize = 8;
const CONSUMED: usize = 23;
const PLAYED: usize = 1;

/// Voice k of a state, but for sound: words, longs, and the bits of floats.
fn voice(s: &Slices, k: usize) -> (&[u32], &[u64], Vec<u32>) {
    let floats = s.floats[k * FLOATS..][..FLOATS].iter().map(|&x| bits(x)).collect();
    (&s.words[10 + k * WORDS..][..WORDS], &s.longs[1 + k * LONGS..][..LONGS], floats)
}

/// Voice k's bytes in a reply, behind the header and 16 bytes for each pool.
fn told(reply: &[u8], s: &Slices, k: usize) -> [u8; 16] {
    let pools = (s.words[6] + s.words[4] * 4) as usize;
    reply[0x40 + (pools + k) * 0x10..][..0x10].try_into().expect("16 bytes")
}

/// The merged block: the port's, or the plain merge's where that is wrong; none where it is refused or too long.
pub fn merged(parameters: &[u8], title: &[u8], click: &[u8], wrong: Wrong) -> Option<Vec<u8>> {
    let room = length(&Call { parameters, title, click, output: &[] }, Wrong::Nothing);
    let mut output = vec![0; room.min(1 << 18) as usize];
    let (number, size) = if wrong == Wrong::Nothing {
        let r = port(parameters, title, click, &mut output);
        (r.number, r.size)
    } else {
        let made = plain_merge::merge(&Call { parameters, title, click, output: &output }, wrong);
        output = made.output;
        (made.number, made.size)
    };
    output.truncate(size);
    (number == 0).then_some(output)
}

/// A renderer, and what it has told.
struct Side {
    probe: Probe,
    reply: Vec<u8>,
    slices: Slices,
    rounds: u64,
}

impl Side {
    /// A state after an update.
    fn new(before: &Slices, input: &[u8]) -> Side {
        let probe = Probe::restore(before);
        let reply = probe.update(input, 0x1000);
        let slices = probe.slices();
        Side { probe, reply, slices, rounds: 0 }
    }

    fn render(&mut self, memory: &[u8]) {
        take_rounds();
        self.probe.render(&Memory { base: BASE, bytes: memory });
        self.rounds = take_rounds();
        self.slices = self.probe.slices();
    }
}

impl Plays {
    /// So many merges; with a wrong variant up to the one that notices it.
    pub fn run(wrong: Wrong, seed: u64, count: u64) -> Plays {
        let kinds = KINDS.iter().map(|&kind| (kind, 0)).collect();
        let mut plays = Plays { wrong, count, kinds, renders: [0; RENDERS + 1], merges: 0, compared: 0, differ: 0 };
        let mut tried = 0;
        while plays.merges < count && tried < 3 * count && (wrong == Wrong::Nothing || plays.differ == 0) {
            tried += 1;
            // Each trial has a seed of its own, so that it can be found again.
            plays.trial(&mut Random(seed.wrapping_mul(0x1_0000_0001).wrapping_add(tried << 8)), tried);
        }
        plays
    }

    fn hit(&mut self, kind: &str, is: bool) {
        *self.kinds.get_mut(kind).unwrap_or_else(|| panic!("no such kind: {kind}")) += u64::from(is);
    }

    /// Counts a comparison, and reports it if it isn't as it should be.
    fn hold(&mut self, right: bool, what: impl FnOnce() -> String) {
        self.compared += 1;
        if !right {
            self.differ += 1;
            if self.differ < 6 && self.wrong == Wrong::Nothing {
                println!("differs: {}", what());
            }
        }
    }

    /// A state, a pair of blocks, the merged one, and renders behind them.
    fn trial(&mut self, r: &mut Random, which: u64) {
        let (p, bytes) = desk(r);
        let n = p[4] as usize;
        let mut titles = [Title::new(r, p.clone()), Title::new(r, p.clone())];
        let (before, calls) = state(r, &p, &bytes, &mut titles);
        let (pair, damaged) = blocks(r, &mut titles, n);
        let Some(block) = merged(&bytes, &pair[0], &pair[1], self.wrong) else {
            self.hit("refused", true);
            return;
        };
        self.merges += 1;
        let used = [0, 1].map(|k: usize| {
            let block = Block::new(&pair[k], Wrong::Nothing);
            (0..n).map(|v| block.record(v, Wrong::Nothing).is_some()).collect::<Vec<bool>>()
        });
        for (kind, is) in [
            ("merges played", true),
            ("of a damaged title", damaged[0]),
            ("of a damaged click", damaged[1]),
            ("of an empty title", pair[0].is_empty()),
            ("of an empty click", pair[1].is_empty()),
            ("of a title of less than a header", (1..0x40).contains(&pair[0].len())),
            ("of 64 voices", n == 64),
            ("from a state just opened", calls == 0),
            ("with voices of the title and of the click", used.iter().all(|u| u.contains(&true))),
        ] {
            self.hit(kind, is);
        }
        let mut all = Side::new(&before, &block);
        // The Rust isn't given empty updates, of which no voice is in use.
        let mut own = [0, 1].map(|k: usize| (!pair[k].is_empty()).then(|| Side::new(&before, &pair[k])));
        let after = all.slices.clone();
        self.same(&all, &own, &used, which, 0);
        let (other, count) = (which % 2 == 0, r.below(RENDERS as u64 + 1) as usize);
        for turn in 1..=count {
            titles[0].stream(r);
            all.render(&titles[0].memory);
            let memory = &titles[usize::from(other)].memory;
            own.iter_mut().flatten().for_each(|side| side.render(memory));
            self.same(&all, &own, &used, which, turn);
            let rounds = [0, 1].map(|k: usize| own[k].as_ref().map_or(0, |side| side.rounds));
            let sum = rounds[0] + rounds[1];
            self.hold(all.rounds == sum, || format!("trial {which}: {} rounds for {rounds:?} at render {turn}", all.rounds));
            self.hit("renders", true);
            self.hit("renders with rounds of the title and of the click", rounds[0] > 0 && rounds[1] > 0);
            self.hit("renders with other sample bytes", other);
            self.hit("renders with other sample bytes that take rounds", other && all.rounds > 0);
        }
        self.renders[count] += 1;
        self.voices(&pair, &used, &before, &after, &all.slices);
    }

    /// Holds each voice of the merged block to that of its own.
    fn same(&mut self, all: &Side, own: &[Option<Side>; 2], used: &[Vec<bool>; 2], which: u64, turn: usize) {
        for k in 0..used[0].len() {
            let ours = voice(&all.slices, k);
            for (side, whose) in own.iter().zip(["title", "click"]) {
                let (Some(side), mine) = (side, used[usize::from(whose == "click")][k]) else { continue };
                // In use in this block, or in neither.
                if mine || !used[0][k] && !used[1][k] {
                    let same = ours == voice(&side.slices, k) && told(&all.reply, &all.slices, k) == told(&side.reply, &side.slices, k);
                    self.hold(same, || format!("trial {which}: voice {k} of the {whose} after {turn} renders"));
                }
            }
            let in_use = used[0][k] || used[1][k];
            self.hold(ours.0[IN_USE] == u32::from(in_use), || format!("trial {which}: whether voice {k} is in use after {turn} renders"));
        }
    }

    /// Counts the voices by where they came from and what they do.
    fn voices(&mut self, pair: &[Vec<u8>; 2], used: &[Vec<bool>; 2], before: &Slices, after: &Slices, last: &Slices) {
        let blocks = [Block::new(&pair[0], Wrong::Nothing), Block::new(&pair[1], Wrong::Nothing)];
        for k in 0..used[0].len() {
            let (was, now, then) = (voice(before, k), voice(after, k), voice(last, k));
            let Some(side) = (0..2).find(|&side: &usize| used[side][k]) else {
                self.hit("voices of neither", true);
                self.hit("voices of neither that were in use", was.0[IN_USE] == 1);
                continue;
            };
            let e = blocks[side].record(k, Wrong::Nothing).expect("a record in use");
            let moves = now.1[PLAYED] != then.1[PLAYED];
            for (kind, is) in [
                ("voices of the title", side == 0),
                ("voices of the click", side == 1),
                ("voices that are new", e[8] != 0),
                ("voices that go on", e[8] == 0 && was.0[IN_USE] == 1),
                ("voices that move", moves),
                ("voices of the click that move", moves && side == 1),
                ("voices that come to the end of a buffer", now.0[CONSUMED] != then.0[CONSUMED]),
                ("voices that are flushed", now.0[FLUSH] != then.0[FLUSH]),
                ("voices that stop", e[0x0a] == 1),
                ("voices that pause", e[0x0a] > 1),
                ("voices of 16-bit PCM", e[0x0b] == 2),
                ("voices of float PCM", e[0x0b] == 5),
                ("voices of ADPCM", e[0x0b] == 6),
                ("voices of silence", ![2, 5, 6].contains(&e[0x0b])),
            ] {
                self.hit(kind, is);
            }
        }
    }

    /// Prints the counts, and what should have been reached and never was; whether there is such a thing.
    pub fn print(&self) -> bool {
        let mut never: Vec<String> = KINDS.iter().filter(|&kind| self.kinds[kind] == 0).map(|kind| kind.to_string()).collect();
        KINDS.iter().for_each(|kind| println!("{kind}: {}", self.kinds[kind]));
        println!("merges by renders behind them, 0 to {RENDERS}: {:?}", self.renders);
        never.extend((self.merges < self.count).then(|| format!("{} merges", self.count)));
        never.extend((0..=RENDERS).filter(|&k| self.renders[k] == 0).map(|k| format!("{k} renders behind a merge")));
        for name in &never {
            println!("never reached: {name}");
        }
        !never.is_empty()
    }
}
