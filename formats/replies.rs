//! What replies were seen to hold: each byte of each record of a reply, and each number.
use crate::calls::Renderer;
use crate::cases::{SAMPLES, parameters};
use crate::flips::Driver;
use crate::table::{Holds, Record, Table};
use std::collections::{BTreeMap, BTreeSet};

/// The largest counts that an open allows.
const MOST: [(&str, u32); 8] = [
    ("sample_count", 256),
    ("mix_buffers", 96),
    ("sub_mixes", 31),
    ("voices", 64),
    ("sinks", 8),
    ("effects", 64),
    ("splitters", 32),
    ("splitter_destinations", 128),
];

pub struct Replies<'a> {
    table: &'a Table,
    /// For each byte of a record which values it had; for each field the least and the greatest number.
    bytes: BTreeMap<(usize, usize), [bool; 256]>,
    numbers: BTreeMap<(usize, usize), (u64, u64)>,
    pub taken: u64,
    pub wrong: BTreeSet<String>,
}

fn number(d: &[u8], at: usize, width: usize) -> u64 {
    (0..width).map(|k| u64::from(*d.get(at + k).unwrap_or(&0)) << (8 * k)).sum()
}

impl<'a> Replies<'a> {
    pub fn new(table: &'a Table) -> Replies<'a> {
        Replies { table, bytes: BTreeMap::new(), numbers: BTreeMap::new(), taken: 0, wrong: BTreeSet::new() }
    }

    /// A reply, cut into its records as the table says.
    pub fn take(&mut self, parameters: &[u8], revision: u32, reply: &[u8]) {
        let t = self.table;
        self.taken += 1;
        let there: Vec<(usize, &Record, usize)> = (t.reply.iter().filter(|&&k| revision >= t.records[k].least))
            .map(|&k| (k, &t.records[k], t.count(k, parameters).expect("a reply's counts come from the parameters")))
            .collect();
        let fixed: usize = there.iter().filter(|(_, r, _)| !r.open).map(|(_, r, n)| r.size * n).sum();
        let head = &t.records[t.reply[0]];
        let mut at = 0;
        for (kind, r, n) in there {
            let size = if r.open { reply.len().saturating_sub(fixed).checked_div(n).unwrap_or(0) } else { r.size };
            if let Some(section) = &r.section {
                let told = number(reply, head.field(section).offset, 4);
                if told != (size * n) as u64 {
                    let by = size * n;
                    self.wrong.insert(format!("{}, revision {revision}: {by:#x} bytes by the table, {section} says {told:#x}", r.name));
                }
            }
            for k in 0..n {
                self.note(kind, r, revision, reply.get(at + k * size..at + (k + 1) * size).unwrap_or_default());
            }
            at += size * n;
        }
        let revision_word = t.record("parameters").field("revision").offset;
        let same = number(reply, head.field("revision").offset, 4) == number(parameters, revision_word, 4);
        let total = number(reply, head.field("total_size").offset, 4);
        if at != reply.len() || total != at as u64 {
            let long = reply.len();
            self.wrong.insert(format!("revision {revision}: a reply has {long:#x} bytes, by the table {at:#x}, by its header {total:#x}"));
        }
        if !same {
            self.wrong.insert(format!("revision {revision}: a reply has another revision word than the parameters"));
        }
    }

    /// One record of a reply.
    fn note(&mut self, kind: usize, r: &Record, revision: u32, d: &[u8]) {
        for (offset, &value) in d.iter().enumerate() {
            // Bytes behind the fields count as one.
            let place = offset.min(r.size);
            let written = r.holder(offset).is_some_and(|f| !f.name.is_empty() && revision >= f.read.least);
            if written {
                self.bytes.entry((kind, place)).or_insert([false; 256])[usize::from(value)] = true;
            } else {
                self.bytes.entry((kind, place)).or_insert([false; 256])[0] = true;
                if value != 0 {
                    self.wrong.insert(format!("{} {place:#x} is not 0 in revision {revision}", r.name));
                }
            }
        }
        let written = r.fields.iter().enumerate().filter(|(_, f)| !f.name.is_empty() && revision >= f.read.least);
        for (k, f) in written.filter(|(_, f)| d.len() >= f.offset + f.width) {
            let value = number(d, f.offset, f.width);
            let (least, most) = self.numbers.entry((kind, k)).or_insert((value, value));
            (*least, *most) = (value.min(*least), value.max(*most));
        }
    }

    /// Replies that the cases' own updates don't give: the smallest and largest counts, a large expected size, whatever a state may hold.
    pub fn more(&mut self, d: &Driver, word: u32, first: &[u8], later: &[u8]) {
        let field = |name: &str| self.table.record("parameters").field(name).offset;
        for most in [false, true] {
            let mut p = parameters(self.table, word);
            for (name, count) in MOST {
                let count = if most { count } else { u32::from(name == "sample_count") };
                p[field(name)..field(name) + 4].copy_from_slice(&count.to_le_bytes());
            }
            for bits in [0, 0xff_ffff] {
                p[field("revision")..field("revision") + 3].copy_from_slice(&u32::to_le_bytes(word ^ bits)[..3]);
                let mut r = Renderer::open(&p).expect("these counts are allowed");
                for expected in [0, 0x0001_2345, if bits == 0 { 0x0181_0000 } else { 0 }] {
                    let a = r.update(expected, &[], expected.max(0x2000) as usize);
                    self.take(&p, d.revision, &a.bytes);
                }
            }
        }
        let mut start = Renderer::open(d.parameters).expect("the parameters are allowed");
        d.update(&mut start, first);
        start.render(d.memory, SAMPLES);
        let base = d.update(&mut start.clone(), later).bytes;
        let same = |bytes: &[u8]| bytes.len() == base.len() && bytes[..0x40] == base[..0x40];
        for k in 0..start.longs.len() {
            let mut r = start.clone();
            r.longs[k] = 0x8877_6655_4433_2211;
            self.take(d.parameters, d.revision, &d.update(&mut r, later).bytes);
        }
        for k in 0..start.words.len() {
            let mut r = start.clone();
            r.words[k] = 0x8877_6655;
            // A state that is not whole is refused, and one of other parameters has another reply.
            let a = d.update(&mut r, later);
            if a.number == 0 && same(&a.bytes) {
                self.take(d.parameters, d.revision, &a.bytes);
            }
        }
    }

    /// How many bytes a record of a reply has by the table, and how many are written.
    pub fn bytes_of(&self, kind: usize) -> (usize, usize) {
        let fields = &self.table.records[kind].fields;
        (fields.iter().map(|f| f.width).sum(), fields.iter().filter(|f| !f.name.is_empty()).map(|f| f.width).sum())
    }

    /// How many bytes of a record hold what the table says; what is wrong with the others is noted.
    pub fn judge(&mut self, kind: usize) -> usize {
        let r = &self.table.records[kind];
        let mut held = 0;
        for (k, f) in r.fields.iter().enumerate() {
            let seen = |at: usize| self.bytes.get(&(kind, f.offset + at)).map_or(0, |v| v.iter().filter(|&&x| x).count());
            let range = self.numbers.get(&(kind, k)).copied();
            let right = match f.holds {
                _ if f.name.is_empty() => (0..f.width).all(|at| seen(at) == 1),
                Holds::Any => (0..f.width).all(|at| seen(at) > 1),
                Holds::Always(n) => range == Some((n, n)),
                Holds::Range(least, most) => range == Some((least, most)),
            };
            if right {
                held += f.width;
                continue;
            }
            let found = range.map_or("not reached".to_string(), |(a, b)| format!("{a:#x} to {b:#x}"));
            self.wrong.insert(format!("{} {:#x} {}: {:?} by the table, seen {found}", r.name, f.offset, f.name, f.holds));
        }
        held
    }
}
