//! Parameters and pairs of update blocks for the driver `merge`, by seed.
use crate::plain_merge::{BEHAVIOUR, CHANNELS, COUNT, COUNTS, EFFECTS, HEADER, IDS, POOLS, RESOURCE, RESOURCES, VOICE, VOICES};
use crate::random::Random;

pub fn put(d: &mut [u8], at: usize, n: u32) {
    if at + 4 <= d.len() {
        d[at..at + 4].copy_from_slice(&n.to_le_bytes());
    }
}

/// Numbers at which a size may go wrong.
pub const EXTREMES: [u32; 12] = [0, 1, 0x3f, 0x6f, 0x70, 0x16f, 0x170, 0x171, 0x7fff_ffff, 0x8000_0000, u32::MAX - 0x40, u32::MAX];

/// The bytes of parameters with so many voices: other counts that are allowed, and any number of samples; what is not read is anything.
pub fn parameters(r: &mut Random, voices: usize) -> Vec<u8> {
    let mut p = r.bytes(0x34);
    for (at, most) in COUNTS {
        put(&mut p, at, [0, most, r.below(u64::from(most) + 1) as u32][r.below(3) as usize]);
    }
    put(&mut p, 0x10, voices as u32);
    put(&mut p, 0x04, [0, 1, 240, 256, 257, r.next() as u32][r.below(6) as usize]);
    if r.below(8) == 0 {
        let more = r.below(5) as usize;
        p.extend(r.bytes(more));
    }
    p
}

/// To which block a voice or a channel belongs.
#[derive(Clone, Copy, PartialEq)]
enum Of {
    Title,
    Click,
    Neither,
    Both,
}

/// What a pair should be: how many voices and channels go to both blocks, of a thousand.
#[derive(Clone, Copy)]
pub struct Aim {
    pub voices: u64,
    pub channels: u64,
}

/// Nothing that 16 or 17 refuses.
pub const APART: Aim = Aim { voices: 0, channels: 0 };

fn of(r: &mut Random, both: u64) -> Of {
    match r.below(1000) < both {
        true => Of::Both,
        false => [Of::Title, Of::Click, Of::Neither, Of::Title, Of::Click][r.below(5) as usize],
    }
}

/// Puts the number of a channel that an update reads as j of n.
fn put_id(r: &mut Random, e: &mut [u8], c: usize, j: usize, n: usize) {
    let (last, any) = (j + 1 == n, r.next() as u32);
    let id = match r.below(4) {
        0 if j == 0 => [u32::MAX, 0x8000_0000, any | 0x8000_0000][r.below(3) as usize],
        1 if last => [n as u32, 0x7fff_ffff, n as u32 + (any >> 4), 0x100 + j as u32][r.below(4) as usize],
        _ => j as u32,
    };
    put(e, IDS + 4 * c, id);
}

/// A voice's record that plays channels of these, or any where there are none; those behind them may be any.
fn record(r: &mut Random, used: bool, own: &[usize], n: usize) -> Vec<u8> {
    let mut e = if r.below(3) == 0 { vec![0; VOICE] } else { r.bytes(VOICE) };
    e[9] = if !used { 0 } else { [1, 1, 1 + r.below(255) as u8][r.below(3) as usize] };
    let count = match r.below(10) {
        0 => 0,
        1 => [7, 8, 0x8000_0000, u32::MAX, 256][r.below(5) as usize],
        _ => 1 + r.below(6) as u32,
    };
    put(&mut e, COUNT, count);
    for c in 0..8 {
        let (any, k) = (own.is_empty() || c >= (count as usize).clamp(1, CHANNELS), r.next() as usize);
        match any {
            true if r.below(3) == 0 => put(&mut e, IDS + 4 * c, r.next() as u32),
            true => put_id(r, &mut e, c, k % n.max(1), n),
            false => put_id(r, &mut e, c, own[k % own.len()], n),
        }
    }
    e
}

/// The sections of a block.
#[derive(Clone, Default)]
pub struct Sections {
    pub header: Vec<u8>,
    pub behaviour: Vec<u8>,
    pub pools: Vec<u8>,
    pub resources: Vec<u8>,
    pub voices: Vec<u8>,
    pub effects: Vec<u8>,
    pub behind: Vec<u8>,
}

impl Sections {
    /// The block, with the sizes of its sections in the header.
    pub fn join(&self) -> Vec<u8> {
        let mut header = self.header.clone();
        let sized = [(BEHAVIOUR, &self.behaviour), (POOLS, &self.pools), (RESOURCES, &self.resources), (VOICES, &self.voices)];
        for (at, section) in sized.into_iter().chain([(EFFECTS, &self.effects)]) {
            put(&mut header, at, section.len() as u32);
        }
        let all = [&header, &self.behaviour, &self.pools, &self.resources, &self.voices, &self.effects, &self.behind];
        all.map(|section| &section[..]).concat()
    }
}

/// Makes a section longer or shorter, by a few bytes or by records.
fn resize(r: &mut Random, section: &mut Vec<u8>, record: usize) {
    let few = 1 + r.below(record as u64 - 1) as usize;
    match r.below(8) {
        0 => section.truncate(section.len().saturating_sub(few)),
        1 => section.truncate(r.below(section.len() as u64 + 1) as usize),
        2 => section.truncate(section.len().saturating_sub(record * (1 + r.below(2) as usize))),
        3 => section.extend(r.bytes(few)),
        4 => section.extend(r.bytes(record)),
        _ => {}
    }
}

/// A block of n voices, of which some are its own and name channels of its own.
fn sections(r: &mut Random, n: usize, mine: Of, voices: &[Of], own: &[usize]) -> Sections {
    let mut s = Sections { header: r.bytes(HEADER), ..Sections::default() };
    let mut some = |most: u64| {
        let count = [0, most, r.below(most + 1)][r.below(3) as usize] as usize;
        r.bytes(count)
    };
    (s.behaviour, s.pools, s.effects, s.behind) = (some(0x10), some(0x40), some(0x30), some(0x20));
    s.resources = r.bytes(n * RESOURCE);
    for &voice in voices {
        let used = voice == mine || voice == Of::Both;
        s.voices.extend(record(r, used, own, n));
    }
    s
}

/// A pair of blocks for n voices: whole sections, voices and channels as the aim has them.
pub fn whole(r: &mut Random, n: usize, aim: Aim) -> [Sections; 2] {
    let mut voices: Vec<Of> = (0..n).map(|_| of(r, aim.voices)).collect();
    let channels: Vec<Of> = (0..n).map(|_| of(r, aim.channels)).collect();
    let own = |mine: Of| -> Vec<usize> { (0..n).filter(|&j| channels[j] == mine || channels[j] == Of::Both).collect() };
    let (title, click) = (own(Of::Title), own(Of::Click));
    // Without a channel of its own a block has no voice.
    for voice in &mut voices {
        *voice = match *voice {
            Of::Title | Of::Both if title.is_empty() => Of::Neither,
            Of::Click | Of::Both if click.is_empty() => Of::Neither,
            voice => voice,
        };
    }
    [sections(r, n, Of::Title, &voices, &title), sections(r, n, Of::Click, &voices, &click)]
}

/// Damages a block: a cut, at any place or near a section's end; a size that lies; bytes anywhere; bytes behind it.
pub fn damage(r: &mut Random, s: &Sections) -> Vec<u8> {
    let mut d = s.join();
    let lengths = [HEADER, s.behaviour.len(), s.pools.len(), s.resources.len(), s.voices.len(), s.effects.len(), s.behind.len()];
    let mut end = 0;
    let ends = lengths.map(|length| {
        end += length;
        end
    });
    match r.below(8) {
        0 => d.truncate(r.below(d.len() as u64 + 1) as usize),
        1 | 2 => {
            let k = r.below(ends.len() as u64) as usize;
            let inside = r.below(lengths[k].min(0x180) as u64 + 1) as usize;
            d.truncate(ends[k] - inside);
        }
        3 => put(&mut d, [BEHAVIOUR, POOLS, VOICES, RESOURCES][r.below(4) as usize], EXTREMES[r.below(12) as usize]),
        4 => {
            let at = [BEHAVIOUR, POOLS, VOICES, RESOURCES, EFFECTS][r.below(5) as usize];
            let size = u32::from_le_bytes(d[at..at + 4].try_into().expect("four bytes"));
            put(&mut d, at, size.wrapping_add(r.below(0x400) as u32).wrapping_sub(0x200));
        }
        5 => {
            for _ in 0..1 + r.below(12) {
                let at = r.below(d.len() as u64) as usize;
                d[at] = r.next() as u8;
            }
        }
        6 => d.truncate(r.below(HEADER as u64 + 9) as usize),
        _ => {
            let more = r.below(0x40) as usize;
            d.extend(r.bytes(more));
        }
    }
    d
}

/// A pair of blocks for n voices: whole, with sections of other lengths, damaged, of any bytes, or empty.
pub fn pair(r: &mut Random, n: usize, aim: Aim) -> [Vec<u8>; 2] {
    whole(r, n, aim).map(|mut s| match r.below(12) {
        0 => vec![],
        1 => {
            let count = [1, 6, 0x40, 0x48, 0x200, r.below(0x300) as usize][r.below(6) as usize];
            r.bytes(count)
        }
        2..5 => damage(r, &s),
        5..8 => {
            resize(r, &mut s.resources, RESOURCE);
            resize(r, &mut s.voices, VOICE);
            s.join()
        }
        _ => s.join(),
    })
}
