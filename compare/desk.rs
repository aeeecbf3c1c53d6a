//! A title's desk by seed: mixes that lead to the final mix, splitters with their destinations, and sinks.
use crate::inputs::{Sections, dirty_mixes, put, put_u32};
use crate::random::Random;
use crate::title::level;

pub struct Desk {
    dirty_only: bool,
    mixes: Vec<Vec<u8>>,
    changed: Vec<bool>,
    lists: Vec<Vec<u32>>,
    destinations: Vec<Vec<u8>>,
    sinks: Vec<Vec<u8>>,
    padded: bool,
}

impl Desk {
    pub fn new(r: &mut Random, p: &[u32]) -> Desk {
        let mixes = p[3] as usize + 1;
        let stride = 0x70 + r.below(3) as usize * 0x10;
        let mut desk = Desk {
            dirty_only: dirty_mixes(p),
            mixes: vec![vec![0; 0x930]; mixes],
            changed: vec![true; mixes],
            lists: vec![vec![]; p[7] as usize],
            destinations: vec![vec![0; stride]; p[8] as usize],
            sinks: vec![vec![0; 0x140]; p[5] as usize],
            padded: r.below(2) == 0,
        };
        let each = (p[2] / mixes as u32).clamp(1, 24);
        for m in 0..mixes {
            desk.mix(r, m, each);
        }
        for k in 0..desk.lists.len() {
            desk.list(r, k);
        }
        for k in 0..desk.destinations.len() {
            desk.destination(r, k);
        }
        for k in 0..desk.sinks.len() {
            desk.sink(r, k, each);
        }
        desk
    }

    /// A mix that leads to one with a lower number, or through a splitter; now and then it is not in use.
    fn mix(&mut self, r: &mut Random, m: usize, buffers: u32) {
        let d = &mut self.mixes[m];
        put(d, 0, &if r.below(4) == 0 { level(r) } else { 1.0 }.to_le_bytes());
        put_u32(d, 8, buffers);
        d[0xc] = u8::from(r.below(12) != 0);
        put_u32(d, 0x10, m as u32);
        for i in 0..24 {
            for j in 0..24 {
                let gain = if i == j { 1.0 } else if r.below(8) == 0 { level(r) } else { 0.0 };
                put(d, 0x24 + (i * 24 + j) * 4, &gain.to_le_bytes());
            }
        }
        let by_splitter = m > 0 && !self.lists.is_empty() && r.below(3) == 0;
        let splitter = if by_splitter { r.below(self.lists.len() as u64) as u32 } else { 0xffff_ffff };
        put_u32(d, 0x924, if m == 0 || by_splitter { 0x7fff_ffff } else { r.below(m as u64) as u32 });
        put_u32(d, 0x928, splitter);
        self.changed[m] = true;
    }

    fn list(&mut self, r: &mut Random, k: usize) {
        let count = self.destinations.len() as u64;
        self.lists[k] = (0..r.below(count + 1)).map(|_| r.below(count) as u32).collect();
    }

    fn destination(&mut self, r: &mut Random, k: usize) {
        let mixes = self.mixes.len() as u64;
        let d = &mut self.destinations[k];
        put(d, 0, b"SNDD");
        put_u32(d, 4, k as u32);
        for j in 0..24 {
            put(d, 8 + j * 4, &level(r).to_le_bytes());
        }
        put_u32(d, 0x68, if r.below(6) == 0 { 0x7fff_ffff } else { r.below(mixes) as u32 });
        d[0x6c] = u8::from(r.below(6) != 0);
    }

    /// A sink: a device mostly, else circular.
    fn sink(&mut self, r: &mut Random, k: usize, buffers: u32) {
        let d = &mut self.sinks[k];
        d[0] = if r.below(10) == 0 { 2 } else { 1 };
        d[1] = u8::from(r.below(10) != 0);
        put_u32(d, 0x120, [2, 2, 6, 6, 1, 4, 0][r.below(7) as usize]);
        for c in 0..6 {
            d[0x124 + c] = if r.below(8) == 0 { r.below(30) as u8 } else { (c as u32 % buffers) as u8 };
        }
        d[0x12b] = r.below(2) as u8;
        for c in 0..4 {
            put(d, 0x12c + c * 4, &level(r).to_le_bytes());
        }
    }

    /// Now and then a mix, a destination or a sink is set anew.
    pub fn turn(&mut self, r: &mut Random) {
        if r.below(4) == 0 {
            let m = r.below(self.mixes.len() as u64) as usize;
            let buffers = 1 + r.below(6) as u32;
            self.mix(r, m, buffers);
        }
        if r.below(4) == 0 && !self.destinations.is_empty() {
            let k = r.below(self.destinations.len() as u64) as usize;
            self.destination(r, k);
        }
        if r.below(6) == 0 && !self.sinks.is_empty() {
            self.sink(r, 0, 2);
        }
    }

    /// Lists and mixes lead elsewhere: to any mix, in circles, nowhere.
    pub fn rewire(&mut self, r: &mut Random) {
        for k in 0..self.lists.len() {
            if r.below(3) == 0 && !self.destinations.is_empty() {
                self.list(r, k);
                // A number that no destination has.
                if let Some(last) = self.lists[k].last_mut().filter(|_| r.below(4) == 0) {
                    *last = [self.destinations.len() as u32, 0xffff_ffff][r.below(2) as usize];
                }
            }
        }
        let mixes = self.mixes.len() as u64;
        for k in 0..self.destinations.len() {
            if r.below(6) == 0 {
                self.destination(r, k);
            }
            if r.below(8) == 0 {
                put_u32(&mut self.destinations[k], 0x68, [mixes as u32, 0xffff_ffff, 0x8000_0001][r.below(3) as usize]);
            }
        }
        for m in 0..self.mixes.len() {
            if r.below(3) == 0 {
                let to = [r.below(mixes + 1) as u32, 0x7fff_ffff, 0xffff_fffe][r.below(3) as usize];
                put_u32(&mut self.mixes[m], 0x924, to);
                put_u32(&mut self.mixes[m], 0x928, r.below(self.lists.len() as u64 + 2) as u32);
                self.changed[m] = true;
            }
        }
    }

    pub fn sections(&mut self, r: &mut Random, s: &mut Sections) {
        let mixes = self.mixes.iter().zip(&self.changed).filter(|(_, changed)| **changed || !self.dirty_only).map(|(d, _)| &d[..]);
        let records: Vec<&[u8]> = mixes.collect();
        if self.dirty_only {
            s.mixes = vec![0; 0x20];
            put_u32(&mut s.mixes, 4, records.len() as u32);
        }
        s.mixes.extend(records.concat());
        self.changed.fill(false);
        s.sinks = self.sinks.concat();
        if self.lists.is_empty() || self.destinations.is_empty() || r.below(8) == 0 {
            return;
        }
        let d = &mut s.splitters;
        d.resize(0x20, 0);
        put(d, 0, b"SNDH");
        put_u32(d, 4, self.lists.len() as u32);
        put_u32(d, 8, self.destinations.len() as u32);
        for (k, list) in self.lists.iter().enumerate() {
            let mut e = vec![0; 0x10];
            put(&mut e, 0, b"SNDI");
            put_u32(&mut e, 4, k as u32);
            put_u32(&mut e, 0xc, list.len() as u32);
            e.extend(list.iter().flat_map(|n| n.to_le_bytes()));
            e.resize(e.len() + if self.padded { 0xc } else { 0 }, 0);
            d.extend(e);
        }
        d.extend(self.destinations.concat());
        d.resize(d.len().next_multiple_of(0x10), 0);
    }
}
