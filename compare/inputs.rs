//! Inputs of an update by seed: well-formed, cut short, damaged, any bytes.
use crate::generate::{address, counter, flag, gain, mix_number, splitter_number};
use crate::random::Random;

pub fn put(d: &mut [u8], at: usize, bytes: &[u8]) {
    if at + bytes.len() <= d.len() {
        d[at..at + bytes.len()].copy_from_slice(bytes);
    }
}

pub fn put_u32(d: &mut [u8], at: usize, v: u32) {
    put(d, at, &v.to_le_bytes());
}

/// The sections of an update's input.
#[derive(Default)]
pub struct Sections {
    pub behavior: Vec<u8>,
    pub pools: Vec<u8>,
    pub resources: Vec<u8>,
    pub voices: Vec<u8>,
    pub effects: Vec<u8>,
    pub splitters: Vec<u8>,
    pub mixes: Vec<u8>,
    pub sinks: Vec<u8>,
}

impl Sections {
    /// The input: a header, in which the sections' sizes are put, and the sections.
    pub fn join(&self, mut header: Vec<u8>) -> Vec<u8> {
        let sized = [(0x04, &self.behavior), (0x08, &self.pools), (0x10, &self.resources), (0x0c, &self.voices), (0x14, &self.effects)];
        for (at, s) in sized.into_iter().chain([(0x18, &self.mixes), (0x1c, &self.sinks)]) {
            put_u32(&mut header, at, s.len() as u32);
        }
        [&header, &self.behavior, &self.pools, &self.resources, &self.voices, &self.effects, &self.splitters, &self.mixes, &self.sinks].map(|s| &s[..]).concat()
    }
}

/// A voice's record: in use most of the time, its offsets within its sizes half the time.
fn voice_record(r: &mut Random, len: u64, mixes: u64, splitters: u64) -> Vec<u8> {
    let mut d = r.bytes(0x170);
    d[8] = u8::from(r.below(4) == 0);
    d[9] = u8::from(r.below(5) != 0);
    d[0x0a] = r.below(4) as u8;
    d[0x0b] = [2, 5, 6, 6, 2, 0, 9][r.below(7) as usize];
    if r.below(3) != 0 {
        put_u32(&mut d, 0x18, r.below(8) as u32);
        put_u32(&mut d, 0x3c, r.below(5) as u32);
        put_u32(&mut d, 0x40, r.below(5) as u32);
        put_u32(&mut d, 0x0c, [48000, 32000, 0, 96000][r.below(4) as usize]);
        put(&mut d, 0x1c, &(r.below(200) as f32 / 64.0).to_le_bytes());
        put(&mut d, 0x20, &gain(r).to_le_bytes());
    }
    put(&mut d, 0x48, &address(r, len).to_le_bytes());
    put_u32(&mut d, 0x58, mix_number(r, mixes));
    put_u32(&mut d, 0x5c, splitter_number(r, splitters));
    for b in 0..4 {
        let at = 0x60 + b * 0x38;
        put(&mut d, at, &address(r, len).to_le_bytes());
        if r.below(4) != 0 {
            put(&mut d, at + 8, &r.below(400).to_le_bytes());
            let start = r.below(40) as u32;
            put_u32(&mut d, at + 0x10, start);
            put_u32(&mut d, at + 0x14, start + r.below(60) as u32);
            put_u32(&mut d, at + 0x30, r.below(40) as u32);
            put_u32(&mut d, at + 0x34, r.below(60) as u32);
        }
        d[at + 0x18] = flag(r) as u8;
        d[at + 0x19] = flag(r) as u8;
        d[at + 0x1a] = flag(r) as u8;
        put_u32(&mut d, at + 0x1c, counter(r) as u32);
        let context = if r.below(3) == 0 { 0 } else { address(r, len) };
        put(&mut d, at + 0x20, &context.to_le_bytes());
    }
    for c in 0..6 {
        put_u32(&mut d, 0x140 + c * 4, if r.below(6) == 0 { r.next() as u32 } else { r.below(8) as u32 });
    }
    d
}

fn splitter_section(r: &mut Random, splitters: u64, destinations: u64, mixes: u64) -> Vec<u8> {
    let mut d = vec![0; 0x20];
    put(&mut d, 0, b"SNDH");
    let (lists, count) = (r.below(splitters + 2), r.below(destinations + 3));
    put_u32(&mut d, 4, if r.below(12) == 0 { r.next() as u32 } else { lists as u32 });
    put_u32(&mut d, 8, if r.below(12) == 0 { r.next() as u32 } else { count as u32 });
    for _ in 0..lists {
        let n = r.below(destinations + 3);
        let mut e = vec![0; 0x10 + n as usize * 4];
        put(&mut e, 0, b"SNDI");
        put_u32(&mut e, 4, if r.below(10) == 0 { r.next() as u32 } else { r.below(splitters + 1) as u32 });
        put_u32(&mut e, 0xc, n as u32);
        for k in 0..n as usize {
            put_u32(&mut e, 0x10 + k * 4, if r.below(10) == 0 { r.next() as u32 } else { r.below(destinations + 1) as u32 });
        }
        let kept = 0x10 + n.min(destinations) as usize * 4;
        if r.below(3) != 0 {
            e.truncate(kept);
        }
        if r.below(2) == 0 {
            e.extend([0; 0xc]);
        }
        d.extend(e);
    }
    let stride = 0x70 + 0x10 * r.below(11) as usize;
    for _ in 0..count {
        let mut e = r.bytes(stride);
        put(&mut e, 0, b"SNDD");
        put_u32(&mut e, 4, if r.below(10) == 0 { r.next() as u32 } else { r.below(destinations + 1) as u32 });
        for k in 0..24 {
            put(&mut e, 8 + k * 4, &gain(r).to_le_bytes());
        }
        put_u32(&mut e, 0x68, mix_number(r, mixes));
        e[0x6c] = r.below(3) as u8;
        d.extend(e);
    }
    d.resize(d.len().next_multiple_of(0x10), 0);
    d
}

fn mix_record(r: &mut Random, mixes: u64, splitters: u64) -> Vec<u8> {
    let mut d = vec![0; 0x930];
    put(&mut d, 0, &gain(r).to_le_bytes());
    put_u32(&mut d, 8, if r.below(8) == 0 { r.next() as u32 } else { r.below(6) as u32 });
    d[0xc] = u8::from(r.below(4) != 0);
    put_u32(&mut d, 0x10, if r.below(8) == 0 { r.next() as u32 } else { r.below(mixes + 1) as u32 });
    for k in 0..576 {
        put(&mut d, 0x24 + k * 4, &gain(r).to_le_bytes());
    }
    let destination = if r.below(3) == 0 { 0x7fff_ffff } else { mix_number(r, mixes) };
    put_u32(&mut d, 0x924, destination);
    put_u32(&mut d, 0x928, splitter_number(r, splitters));
    d
}

fn sink_record(r: &mut Random) -> Vec<u8> {
    let mut d = r.bytes(0x140);
    d[0] = [1, 1, 1, 0, 2][r.below(5) as usize];
    d[1] = flag(r) as u8;
    put_u32(&mut d, 0x120, if r.below(8) == 0 { r.next() as u32 } else { [0, 1, 2, 5, 6, 7][r.below(6) as usize] });
    for k in 0..6 {
        d[0x124 + k] = r.below(14) as u8;
    }
    d[0x12b] = flag(r) as u8;
    for k in 0..4 {
        put(&mut d, 0x12c + k * 4, &gain(r).to_le_bytes());
    }
    d
}

/// Whether the mixes' section has a header and mix numbers, by the parameters' revision.
pub fn dirty_mixes(p: &[u32]) -> bool {
    (p[9] >> 24).wrapping_sub(0x30) >= 7
}

/// An update's input for these parameters, and what was done to it: 0 well-formed, 1 cut short, 2 damaged, 3 any bytes.
pub fn input(r: &mut Random, p: &[u32], len: u64) -> (Vec<u8>, usize) {
    if r.below(16) == 0 {
        let n = [0, 3, 0x20, 0x40, 0x200, 0x1000][r.below(6) as usize];
        return (r.bytes(n), 3);
    }
    let (mixes, voices, sinks, effects) = (u64::from(p[3]) + 1, p[4] as usize, p[5] as usize, p[6] as usize);
    let (splitters, destinations) = (u64::from(p[7]), u64::from(p[8]));
    let pools = p[6] as usize + voices * 4;
    let some = |r: &mut Random, n: usize| if r.below(6) == 0 { r.below(n as u64 + 2) as usize } else { n };
    let mut s = Sections::default();
    let size = r.below(3) as usize * 0x10;
    s.behavior = r.bytes(size);
    let n = some(r, pools);
    s.pools = r.bytes(n * 0x20);
    for k in 0..n {
        put_u32(&mut s.pools, k * 0x20 + 0x10, r.below(7) as u32);
    }
    for _ in 0..some(r, voices) {
        let mut e = r.bytes(0x70);
        for k in 0..24 {
            put(&mut e, 4 + k * 4, &gain(r).to_le_bytes());
        }
        s.resources.extend(e);
    }
    let n = some(r, voices);
    s.voices = (0..n).flat_map(|_| voice_record(r, len, mixes, splitters)).collect();
    let size = [0, 1, 2, 3, 8, 0xc0][r.below(6) as usize] * effects + r.below(3) as usize;
    s.effects = (0..size).map(|_| r.below(3) as u8).collect();
    if r.below(6) != 0 {
        s.splitters = splitter_section(r, splitters, destinations, mixes);
    }
    let n = some(r, mixes as usize);
    if dirty_mixes(p) {
        s.mixes = r.bytes(0x20);
        put_u32(&mut s.mixes, 4, if r.below(10) == 0 { r.next() as u32 } else { n as u32 });
    }
    for _ in 0..n {
        s.mixes.extend(mix_record(r, mixes, splitters));
    }
    let n = some(r, sinks);
    s.sinks = (0..n).flat_map(|_| sink_record(r)).collect();
    let mut d = s.join(r.bytes(0x40));
    let kind = match r.below(5) {
        0 => {
            cut(r, &mut d);
            1
        }
        1 => {
            damage(r, &mut d);
            2
        }
        _ => 0,
    };
    (d, kind)
}

/// Cuts an input short, half the time near its end.
pub fn cut(r: &mut Random, d: &mut Vec<u8>) {
    let n = if r.below(2) == 0 { r.below(d.len() as u64 + 1) } else { d.len() as u64 - r.below(d.len().min(0x200) as u64 + 1) };
    d.truncate(n as usize);
}

/// Changes some bytes of an input, half of them in its header.
pub fn damage(r: &mut Random, d: &mut [u8]) {
    for _ in 0..=r.below(6) {
        let at = if r.below(2) == 0 { r.below(d.len().min(0x40) as u64) } else { r.below(d.len() as u64) };
        d[at as usize] = r.next() as u8;
    }
}
