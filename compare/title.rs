//! A title by seed: sounds in memory, voices that play them, and a desk that mixes them. Each turn changes some of it.
use crate::desk::Desk;
use crate::generate::BASE;
use crate::inputs::{Sections, put, put_u32};
use crate::random::Random;
use std::ops::Range;

/// Sample memory: eight tables of coefficients, contexts, then sounds of 16-bit numbers, of floats and of ADPCM.
const CONTEXTS: usize = 0x100;
const INTEGERS: usize = 0x200;
const FLOATS: usize = 0x1200;
const ADPCM: usize = 0x2a00;
pub const SIZE: usize = 0x3200;

/// What stands where in memory.
pub const KINDS: [&str; 5] = ["coefficients", "context", "PCM16", "PCM float", "ADPCM data"];
pub const PLACES: [Range<usize>; 5] = [0..CONTEXTS, CONTEXTS..INTEGERS, INTEGERS..FLOATS, FLOATS..ADPCM, ADPCM..SIZE];

fn unit(r: &mut Random) -> f32 {
    r.below(0x20000) as f32 / 65536.0 - 1.0
}

/// A number from -1 to 1 of one of many magnitudes, with as many bits as a float has.
fn wide(r: &mut Random) -> f32 {
    r.next() as i32 as f32 / (1u64 << (31 + r.below(16))) as f32
}

/// A gain or volume as titles send them.
pub fn level(r: &mut Random) -> f32 {
    [0.0, 1.0, 1.0, 0.5, 0.25, 0.707, 1.0, 0.9, 1.5, -0.5][r.below(10) as usize]
}

/// Fills a part of memory with what belongs there; float sounds with numbers of many magnitudes, if they are `widened`.
fn fill(r: &mut Random, memory: &mut [u8], from: usize, to: usize, widened: bool) {
    let mut at = from;
    while at < to {
        let word = match at {
            FLOATS..ADPCM => if widened { wide(r) } else { unit(r) }.to_bits(),
            ADPCM.. if at % 8 == 0 => (r.next() as u32 & !0xff) | (r.below(8) << 4 | r.below(12)) as u32,
            ADPCM.. => r.next() as u32,
            INTEGERS.. => r.next() as u32 & 0x3fff_3fff,
            _ => (r.below(0x1000) as u32).wrapping_sub(0x400) & 0xffff | (r.below(0x800) as u32).wrapping_sub(0x600) << 16,
        };
        put_u32(memory, at, word);
        at += 4;
    }
}

/// A voice's record, and the slot of its next wave buffer.
struct Player {
    record: Vec<u8>,
    next: usize,
}

pub struct Title {
    pub p: Vec<u32>,
    /// Where memory stands.
    pub base: u64,
    pub memory: Vec<u8>,
    widened: bool,
    voices: Vec<Player>,
    resources: Vec<Vec<u8>>,
    pub desk: Desk,
}

impl Title {
    pub fn new(r: &mut Random, p: Vec<u32>) -> Title {
        let mut memory = vec![0; SIZE];
        fill(r, &mut memory, 0, SIZE, false);
        let voices = (0..p[4]).map(|_| Player { record: vec![0; 0x170], next: 0 }).collect();
        let resources = (0..p[4]).map(|_| vec![0; 0x70]).collect();
        let desk = Desk::new(r, &p);
        Title { p, base: BASE, memory, widened: false, voices, resources, desk }
    }

    /// Float sounds of many magnitudes from now on, and most voices play them.
    pub fn widen(&mut self, r: &mut Random) {
        self.widened = true;
        fill(r, &mut self.memory, FLOATS, ADPCM, true);
    }

    /// Some of the sounds change, as where a title streams.
    pub fn stream(&mut self, r: &mut Random) {
        let from = r.below(SIZE as u64 / 8) as usize * 8;
        fill(r, &mut self.memory, from, (from + 0x400).min(SIZE), self.widened);
    }

    /// A mix, or a splitter.
    fn route(&self, r: &mut Random) -> (u32, u32) {
        if self.p[7] > 0 && self.p[8] > 0 && r.below(3) == 0 {
            return (0x7fff_ffff, r.below(u64::from(self.p[7])) as u32);
        }
        (r.below(u64::from(self.p[3]) + 1) as u32, 0xffff_ffff)
    }

    /// A new voice: the formats 1, 3 and 4 are titles' PCM of other widths, which the Rust plays as silence.
    fn start(&mut self, r: &mut Random, v: usize) {
        let route = self.route(r);
        let d = &mut self.voices[v].record;
        d.fill(0);
        d[8] = 1;
        d[9] = 1;
        d[0x0b] = [2, 2, 2, 5, 5, 6, 6, 6, 6, 1, 3, 4][r.below(12) as usize];
        if self.widened && r.below(4) != 0 {
            d[0x0b] = 5;
        }
        let channels = if d[0x0b] == 6 && r.below(4) != 0 { 1 } else { 1 + r.below(6) as u32 };
        put_u32(d, 0x18, channels);
        put_u32(d, 0x58, route.0);
        put_u32(d, 0x5c, route.1);
        put(d, 0x48, &(self.base + r.below(8) * 32).to_le_bytes());
        for b in 0..4 {
            d[0x60 + b * 0x38 + 0x1a] = 1;
        }
        put_u32(d, 0x15c, [0, 0, 0, 1, 2, 3][r.below(6) as usize]);
        for c in 0..6 {
            put_u32(d, 0x140 + c * 4, if r.below(4) == 0 { r.below(u64::from(self.p[4])) as u32 } else { (v + c) as u32 % self.p[4] });
        }
        self.voices[v].next = 0;
        self.pace(r, v);
        for _ in 0..=r.below(4) {
            self.queue(r, v);
        }
    }

    /// Rate, pitch, volume and gains.
    fn pace(&mut self, r: &mut Random, v: usize) {
        let d = &mut self.voices[v].record;
        put_u32(d, 0x0c, [48000, 48000, 32000, 24000, 44100, 96000][r.below(6) as usize]);
        put(d, 0x1c, &[1.0f32, 1.0, 0.5, 2.0, 1.37, 0.03][r.below(6) as usize].to_le_bytes());
        put(d, 0x20, &level(r).to_le_bytes());
        let d = &mut self.resources[v];
        for k in 0..24 {
            put(d, 4 + k * 4, &level(r).to_le_bytes());
        }
    }

    /// One more wave buffer, in the format that the voice has.
    fn queue(&mut self, r: &mut Random, v: usize) {
        let Player { record: d, next } = &mut self.voices[v];
        let (format, channels) = (d[0x0b], u64::from(d[0x18]));
        let most = if r.below(6) == 0 { 8 } else { 1200 };
        let (from, size, count) = match format {
            2 | 5 => {
                let (from, to, width) = if format == 2 { (INTEGERS, FLOATS, 2) } else { (FLOATS, ADPCM, 4) };
                let frame = width * channels;
                let count = 1 + r.below(most.min((to - from) as u64 / frame));
                (from as u64 + r.below(((to - from) as u64 - count * frame) / 4 + 1) * 4, count * frame, count)
            }
            6 => {
                let count = 1 + r.below(most * 2);
                let size = oracle::dsp::adpcm_size(count);
                (ADPCM as u64 + r.below(((SIZE - ADPCM) as u64 - size) / 8 + 1) * 8, size, count)
            }
            _ => (INTEGERS as u64, r.below(0x400), 1 + r.below(most)),
        };
        let (mut from, mut size, mut end, mut start) = (self.base + from, size, count, if r.below(3) == 0 { r.below(count) } else { 0 });
        // A loop inside the buffer; now and then one of any two places.
        let looped = start + r.below(count - start);
        let again = if r.below(8) == 0 { (r.below(count * 2), r.below(count * 2)) } else { (looped, looped + r.below(count - looped + 1)) };
        match r.below(40) {
            0 => start = count + 1 + r.below(8),
            // So far before memory that the sum with the first sample's place goes round and lands in it.
            1 if format == 2 || format == 5 => {
                start = 0x8000_0000 + r.below(0x4000_0000);
                end = start + count;
                from = from.wrapping_sub(start * channels * if format == 2 { 2 } else { 4 });
                size = 1 << 62;
            }
            _ => {}
        }
        let at = 0x60 + *next * 0x38;
        let mut w = vec![0; 0x38];
        put(&mut w, 0x00, &from.to_le_bytes());
        put(&mut w, 0x08, &size.to_le_bytes());
        put_u32(&mut w, 0x10, start as u32);
        put_u32(&mut w, 0x14, end as u32);
        w[0x18] = r.below(2) as u8;
        w[0x19] = u8::from(r.below(3) == 0);
        put_u32(&mut w, 0x1c, [-1i32, -1, 0, 1, 2, 5][r.below(6) as usize] as u32);
        if r.below(2) == 0 {
            put(&mut w, 0x20, &(self.base + CONTEXTS as u64 + r.below(32) * 8).to_le_bytes());
        }
        if r.below(2) == 0 {
            put_u32(&mut w, 0x30, again.0 as u32);
            put_u32(&mut w, 0x34, again.1 as u32);
        }
        put(d, at, &w);
        *next = (*next + 1) % 4;
        let queued = u32::from_le_bytes(d[0x3c..0x40].try_into().unwrap());
        put_u32(d, 0x3c, (queued + 1).min(4));
        put_u32(d, 0x40, ((*next + 4) as u32 - (queued + 1).min(4)) % 4);
    }

    /// What a title does between two updates.
    pub fn turn(&mut self, r: &mut Random) {
        for v in 0..self.voices.len() {
            let d = &mut self.voices[v].record;
            d[0x159] = 0;
            if d[9] == 0 {
                if r.below(3) != 0 {
                    self.start(r, v);
                }
                continue;
            }
            match r.below(22) {
                0 => d[0x0a] = 1,
                1 => d[0x0a] = 2,
                2..6 => d[0x0a] = 0,
                6 => d[0x159] = 1 + r.below(4) as u8,
                7 => d[9] = 0,
                8 => self.start(r, v),
                9 => self.pace(r, v),
                10..20 => self.queue(r, v),
                _ => {}
            }
        }
        self.desk.turn(r);
    }

    /// Most voices slow down, so far that a short render needs no new sample; one in eight goes on at pitch 1, and one stays as it is.
    pub fn slow(&mut self, r: &mut Random) {
        for Player { record, .. } in &mut self.voices {
            let pitch = match r.below(8) {
                0 => 1.0f32,
                1 => continue,
                _ => [0.0, 1e-9, 0.003, 0.02][r.below(4) as usize],
            };
            put(record, 0x1c, &pitch.to_le_bytes());
        }
    }

    /// Voices change their routes, formats and channel counts while they play, and the desk its wires.
    pub fn rewire(&mut self, r: &mut Random) {
        for v in 0..self.voices.len() {
            let (mix, splitter) = self.route(r);
            let d = &mut self.voices[v].record;
            match r.below(8) {
                0 => put_u32(d, 0x58, 0x7fff_ffff),
                1 => put_u32(d, 0x5c, 0xffff_ffff),
                2 => put_u32(d, 0x58, [self.p[3] + 1, 0xffff_ffff, 0x8000_0000][r.below(3) as usize]),
                3 => {
                    put_u32(d, 0x58, mix);
                    put_u32(d, 0x5c, splitter);
                }
                4 => {
                    d[0x0b] = [2, 5, 6, 4][r.below(4) as usize];
                    put_u32(d, 0x18, 1 + r.below(6) as u32);
                    if r.below(2) == 0 && d[9] != 0 {
                        self.queue(r, v);
                    }
                }
                5 => put_u32(d, 0x5c, r.below(u64::from(self.p[7]) + 2) as u32),
                _ => {}
            }
        }
        self.desk.rewire(r);
    }

    /// The update's sections. What was sent once is marked as sent.
    pub fn sections(&mut self, r: &mut Random) -> Sections {
        let pools = self.p[6] as usize + self.voices.len() * 4;
        let mut s = Sections { behavior: vec![0; 0x10], pools: vec![0; pools * 0x20], ..Sections::default() };
        for k in 0..pools {
            put_u32(&mut s.pools, k * 0x20 + 0x10, r.below(6) as u32);
        }
        s.resources = self.resources.concat();
        for v in &mut self.voices {
            s.voices.extend(&v.record);
            v.record[8] = 0;
            for b in 0..4 {
                v.record[0x60 + b * 0x38 + 0x1a] = 1;
            }
        }
        s.effects = vec![0; self.p[6] as usize * 0xc0];
        for e in s.effects.chunks_mut(0xc0) {
            e[2] = r.below(2) as u8;
        }
        self.desk.sections(r, &mut s);
        s
    }

    /// An update's input.
    pub fn input(&mut self, r: &mut Random) -> Vec<u8> {
        let mut header = vec![0; 0x40];
        put_u32(&mut header, 0, self.p[9]);
        self.sections(r).join(header)
    }
}
