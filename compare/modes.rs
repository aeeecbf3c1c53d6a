//! Sessions by seed, in modes.
use crate::cuts::END;
use crate::generate::{BASE, parameters};
use crate::inputs::{Sections, cut, damage, input};
use crate::lends::{Lend, at_once, in_ranges, in_ranges_refused};
use crate::port::whole;
use crate::random::Random;
use crate::refusals::{refused, refused_opens};
use crate::sections::in_sections;
use crate::title::{SIZE, Title};
use oracle::renderer::Probe;

pub const MODES: [&str; 11] =
    ["played", "routes", "damaged", "random", "refused", "limits", "small", "slowed", "ranges", "ranges_refused", "sections"];

/// A call. `spare` is how much longer, or shorter, the reply or frame slice is than what the call gives; `ranges` are three numbers each.
/// A section is so many renders in one call.
#[derive(Clone)]
pub enum Call {
    Update { expected: u32, input: Vec<u8>, spare: i64 },
    Render { ranges: Vec<u64>, memory: Vec<u8>, spare: i64 },
    Section { count: u32, ranges: Vec<u64>, memory: Vec<u8>, spare: i64 },
}

/// An open: the parameter bytes, and which state slice is how much too long or too short.
#[derive(Clone)]
pub struct Open {
    pub parameters: Vec<u8>,
    pub off: [i64; 5],
}

/// Opens, of which the first that succeeds begins the session, and the calls after it; and where the title's memory stands.
#[derive(Clone)]
pub struct Session {
    pub opens: Vec<Open>,
    pub calls: Vec<Call>,
    pub base: u64,
}

/// The parameters' bytes; what `Params` does not read is filled with anything.
pub fn parameter_bytes(r: &mut Random, p: &[u32]) -> Vec<u8> {
    let mut d = r.bytes(0x34);
    for (at, v) in [0x00, 0x04, 0x08, 0x0c, 0x10, 0x14, 0x18, 0x24, 0x28, 0x30].into_iter().zip(p) {
        d[at..at + 4].copy_from_slice(&v.to_le_bytes());
    }
    d
}

/// Parameters of a title that is heard: voices, a sink, room for its mixes.
fn heard(r: &mut Random) -> Vec<u32> {
    let mut p = parameters(r);
    p[0] = [48000, 48000, 32000][r.below(3) as usize];
    p[1] = [240, 160, 64, 32, 5, 256, 1][r.below(7) as usize];
    p[2] = p[2].max(6 + r.below(20) as u32);
    p[3] = p[3].min(8);
    p[4] = p[4].clamp(1, 8);
    p[5] = p[5].max(1);
    p
}

fn most(r: &mut Random) -> Vec<u32> {
    let mut p = parameters(r);
    p[..9].copy_from_slice(&[48000, 256, 96, 31, 64, 8, 64, 32, 128]);
    p
}

/// Parameters within question 10's limits.
fn small(r: &mut Random) -> Vec<u32> {
    let mut p = heard(r);
    for (k, most) in [(1, 64), (2, 12), (3, 3), (4, 4), (7, 8), (8, 8)] {
        p[k] = p[k].min(most);
    }
    p
}

/// Parameters of a title that is heard, with any number of samples that is allowed.
fn any_samples(r: &mut Random) -> Vec<u32> {
    let mut p = heard(r);
    p[1] = [1, 256, 1 + r.below(32) as u32, 1 + r.below(256) as u32][r.below(4) as usize];
    p
}

/// Parameters of a title that is heard; one in twelve has renders so short that the largest sections of them are cheap.
fn for_sections(r: &mut Random) -> Vec<u32> {
    let mut p = heard(r);
    if r.below(12) == 0 {
        for (k, most) in [(1, 3), (3, 1), (4, 2), (5, 2), (7, 2), (8, 2)] {
            p[k] = p[k].min(most);
        }
    }
    p
}

/// The expected size: mostly what titles ask for, with 16 bytes for each effect.
fn expected(r: &mut Random, p: &[u32]) -> u32 {
    match r.below(8) {
        0 => r.below(0x400) as u32,
        1 => r.below(0x4000) as u32,
        _ => 0x40 + (p[6] + p[4] * 4) * 0x10 + p[4] * 0x10 + p[5] * 0x20 + 0xd0 + p[6] * 0x10,
    }
}

/// Bytes that are too few for an update's header: 1 to 63.
pub fn short(r: &mut Random) -> Vec<u8> {
    let n = [1, 63, 1 + r.below(63) as usize][r.below(3) as usize];
    r.bytes(n)
}

/// A title's calls: a few renders after each update.
fn played(r: &mut Random, p: Vec<u32>, rewired: bool) -> Vec<Call> {
    let title = Title::new(r, p);
    calls_of(r, title, rewired, at_once)
}

/// The calls of a title whose memory is lent in a way.
fn calls_of(r: &mut Random, mut title: Title, rewired: bool, lend: Lend) -> Vec<Call> {
    let mut calls = Vec::new();
    let count = 2 + r.below(29) as usize;
    while calls.len() < count {
        title.turn(r);
        if rewired && !calls.is_empty() {
            title.rewire(r);
        }
        sent(r, &mut title, &mut calls, lend);
    }
    calls.truncate(count);
    calls
}

/// A title's update and a few renders.
fn sent(r: &mut Random, title: &mut Title, calls: &mut Vec<Call>, lend: Lend) {
    calls.push(Call::Update { expected: expected(r, &title.p), input: title.input(r), spare: r.below(3) as i64 });
    for _ in 0..r.below(4) {
        if r.below(3) == 0 {
            title.stream(r);
        }
        calls.extend(lend(r, title));
    }
}

/// The calls of a title whose chart slows down: a few turns at normal pitch, so that its voices have sound behind them, then turns in
/// which voices need few new samples or none, and now and then go on at normal pitch. Half of the titles have float sounds of many
/// magnitudes.
fn slowed(r: &mut Random, p: Vec<u32>) -> Vec<Call> {
    let mut title = Title::new(r, p);
    if r.below(2) == 0 {
        title.widen(r);
    }
    let mut calls = Vec::new();
    let (normal, turns) = (1 + r.below(3), 4 + r.below(8));
    for k in 0..turns {
        title.turn(r);
        if k >= normal {
            title.slow(r);
        }
        sent(r, &mut title, &mut calls, at_once);
    }
    calls
}

/// Some of the inputs are changed or cut short, some of the memories cut short or lent elsewhere.
fn damaged(r: &mut Random, calls: &mut [Call]) {
    for call in calls {
        match call {
            Call::Update { input, .. } => match r.below(8) {
                0 => cut(r, input),
                1 => damage(r, input),
                2 | 3 => {
                    // Not in the header, so that all sections stand where they stood.
                    for _ in 0..r.below(12) {
                        damage(r, &mut input[0x40..]);
                    }
                }
                _ => {}
            },
            Call::Render { ranges, memory, .. } | Call::Section { ranges, memory, .. } => {
                let mut base = BASE;
                match r.below(6) {
                    0 => memory.truncate(r.below(memory.len() as u64 + 1) as usize),
                    1 => damage(r, memory),
                    2 => base = [0, BASE - 8, BASE + 0x200, (1 << 63) - memory.len() as u64][r.below(4) as usize],
                    _ => {}
                }
                *ranges = whole(base, memory).to_vec();
            }
        }
    }
}

/// Any bytes: an input of nothing else, one whose header gives sizes that fit, or one of those for the updates' driver.
fn anything(r: &mut Random, p: &[u32]) -> Vec<Call> {
    let (count, size) = (2 + r.below(29), [0, 400, 2000, 2000][r.below(4) as usize]);
    (0..count)
        .map(|_| {
            if r.below(2) == 0 {
                let (base, memory) = (if r.below(8) == 0 { r.next() >> 1 } else { BASE }, r.bytes(size));
                return Call::Render { ranges: whole(base, &memory).to_vec(), memory, spare: r.below(3) as i64 };
            }
            let input = match r.below(8) {
                0 => r.bytes(size),
                1 => {
                    let mut any = |each: usize, n: u32| {
                        let n = each * n as usize + r.below(3) as usize;
                        r.bytes(n)
                    };
                    let (pools, resources, voices) = (any(0x20, p[6] + p[4] * 4), any(0x70, p[4]), any(0x170, p[4]));
                    let (effects, splitters, mixes, sinks) = (any(8, p[6]), any(0x10, 4), any(0x930, p[3] + 1), any(0x140, p[5]));
                    Sections { behavior: vec![], pools, resources, voices, effects, splitters, mixes, sinks }.join(r.bytes(0x40))
                }
                _ => input(r, p, size as u64).0,
            };
            // The whole range of expected sizes, within what a driver can lend.
            let expected = if p[6] == 0 { r.next() as u32 } else { r.below(0x8000) as u32 };
            Call::Update { expected, input, spare: r.below(3) as i64 }
        })
        .collect()
}

pub fn session(r: &mut Random, mode: &str) -> Session {
    let p = match mode {
        "limits" => most(r),
        "small" => small(r),
        "slowed" => any_samples(r),
        "sections" => for_sections(r),
        "random" if r.below(2) == 0 => parameters(r),
        _ => heard(r),
    };
    let (mut opens, mut base) = (Vec::new(), BASE);
    let calls = match mode {
        "random" => {
            let mut p = p.clone();
            if r.below(4) == 0 {
                p[0] = r.next() as u32;
                p[9] = r.next() as u32;
            }
            opens.push(Open { parameters: parameter_bytes(r, &p), off: [0; 5] });
            anything(r, &p)
        }
        "refused" => {
            opens = refused_opens(r, &p);
            let calls = played(r, p.clone(), false);
            refused(r, calls)
        }
        "damaged" => {
            let mut calls = played(r, p.clone(), true);
            damaged(r, &mut calls);
            calls
        }
        "limits" => {
            let rewired = r.below(2) == 0;
            played(r, p.clone(), rewired)
        }
        "slowed" => slowed(r, p.clone()),
        "ranges" | "ranges_refused" => {
            base = [BASE, BASE, BASE + 1, 0, 1 << 40, END - SIZE as u64][r.below(6) as usize];
            let mut title = Title::new(r, p.clone());
            title.base = base;
            calls_of(r, title, false, if mode == "ranges" { in_ranges } else { in_ranges_refused })
        }
        "sections" => {
            let title = Title::new(r, p.clone());
            calls_of(r, title, false, in_sections)
        }
        _ => played(r, p.clone(), mode == "routes"),
    };
    opens.push(Open { parameters: parameter_bytes(r, &p), off: [0; 5] });
    Session { opens, calls, base }
}

/// A session in which an empty update comes after one call in five, one in eight of them refused for want of a byte, and bytes too few for
/// a header after one call in forty.
pub fn asking(r: &mut Random, mode: &str) -> Session {
    let Session { opens, calls, base } = session(r, mode);
    let p = Probe::parameters(&opens[opens.len() - 1].parameters);
    let mut out = Vec::new();
    for call in calls {
        out.push(call);
        if r.below(5) == 0 {
            let spare = if r.below(8) == 0 { -1 } else { r.below(3) as i64 };
            out.push(Call::Update { expected: expected(r, &p), input: vec![], spare });
        }
        if r.below(40) == 0 {
            out.push(Call::Update { expected: expected(r, &p), input: short(r), spare: 0 });
        }
    }
    Session { opens, calls: out, base }
}
