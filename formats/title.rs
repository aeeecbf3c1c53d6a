//! Records and updates written by the names in the table.
use crate::table::{PADDING, Table};

/// A small generator of numbers, for bytes that nothing reads and for gains.
#[derive(Clone)]
pub struct Random(pub u64);

impl Random {
    pub fn next(&mut self) -> u64 {
        self.0 ^= self.0 << 13;
        self.0 ^= self.0 >> 7;
        self.0 ^= self.0 << 17;
        self.0
    }

    /// From `low` to `high`, all bits of the fraction in use.
    pub fn float(&mut self, low: f32, high: f32) -> f32 {
        low + (high - low) * (self.next() >> 40) as f32 / (1 << 24) as f32
    }
}

pub fn f(x: f32) -> u64 {
    u64::from(x.to_bits())
}

#[derive(Clone)]
pub struct Rec<'a> {
    table: &'a Table,
    pub record: usize,
    pub bytes: Vec<u8>,
    /// How many of the bytes are padding behind it.
    padding: usize,
    /// It stands behind the last one that counts.
    pub beyond: bool,
}

impl<'a> Rec<'a> {
    /// A record with `more` bytes than its fixed or least size. All its fields are 0; bytes that nothing reads hold anything.
    pub fn new(table: &'a Table, r: &mut Random, name: &str, more: usize) -> Rec<'a> {
        let record = table.place(name);
        let bytes = (0..table.records[record].size + more).map(|_| r.next() as u8).collect();
        let mut rec = Rec { table, record, bytes, padding: 0, beyond: false };
        for at in 0..rec.bytes.len() {
            let (inner, offset) = table.leaf(record, at);
            if table.records[inner].holder(offset).is_some_and(|f| !f.name.is_empty()) {
                rec.bytes[at] = 0;
            }
        }
        rec
    }

    /// So many bytes behind the record.
    pub fn pad(&mut self, r: &mut Random, n: usize) {
        self.bytes.extend((0..n).map(|_| r.next() as u8));
        self.padding += n;
    }

    /// The record and the offset of each byte.
    fn map(&self) -> impl Iterator<Item = (usize, usize)> {
        let own = self.bytes.len() - self.padding;
        let places = (0..own).map(|at| self.table.leaf(self.record, at)).chain((0..self.padding).map(|k| (self.record, PADDING + k)));
        places.enumerate().map(|(k, place)| if self.beyond { (self.table.behind(), k) } else { place })
    }

    fn put(&mut self, at: usize, width: usize, value: u64) {
        self.bytes[at..at + width].copy_from_slice(&value.to_le_bytes()[..width]);
    }

    /// Element k of a field.
    pub fn nth(&mut self, name: &str, k: usize, value: u64) {
        let field = self.table.records[self.record].field(name);
        self.put(field.offset + k * field.one, field.one, value);
    }

    pub fn set(&mut self, name: &str, value: u64) {
        self.nth(name, 0, value);
    }

    /// A field gets a value that the table names.
    pub fn named(&mut self, name: &str, value: &str) {
        let field = self.table.records[self.record].field(name);
        let number = field.values.iter().find(|v| v.0 == value).unwrap_or_else(|| panic!("{name} has no value {value}")).1;
        self.set(name, number);
    }

    /// A field of element k of a field that is made of records.
    pub fn inner(&mut self, name: &str, k: usize, inner: &str, value: u64) {
        let outer = self.table.records[self.record].field(name);
        let field = self.table.records[outer.record.expect("a field of records")].field(inner);
        self.put(outer.offset + k * outer.one + field.offset, field.one, value);
    }
}

/// An update's input, and for each byte its record and its offset there.
pub struct Input {
    pub bytes: Vec<u8>,
    pub map: Vec<(usize, usize)>,
}

/// An update: its records in any sequence, those of one kind in their own.
#[derive(Clone)]
pub struct Title<'a> {
    pub table: &'a Table,
    pub revision: u32,
    pub random: Random,
    pub records: Vec<Rec<'a>>,
}

impl<'a> Title<'a> {
    pub fn add(&mut self, name: &str, more: usize) -> &mut Rec<'a> {
        let rec = Rec::new(self.table, &mut self.random, name, more);
        self.records.push(rec);
        self.records.last_mut().unwrap()
    }

    /// The records of a kind.
    pub fn all(&mut self, name: &str) -> impl Iterator<Item = &mut Rec<'a>> {
        let record = self.table.place(name);
        self.records.iter_mut().filter(move |r| r.record == record)
    }

    pub fn drop(&mut self, names: &[&str]) {
        let out: Vec<usize> = names.iter().map(|n| self.table.place(n)).collect();
        self.records.retain(|r| !out.contains(&r.record));
    }

    /// The records in the table's sequence, behind a header with the sizes of the sections. The records without a section, which are the
    /// splitters', end at a multiple of 16 bytes.
    pub fn input(&self) -> Input {
        let t = self.table;
        let head = t.update[0];
        let mut header = Rec::new(t, &mut self.random.clone(), &t.records[head].name, 0);
        let (mut bytes, mut map) = (Vec::new(), Vec::new());
        let mut begun = None;
        for &kind in &t.update[1..] {
            let record = &t.records[kind];
            if let (Some(_), Some(start)) = (&record.section, begun) {
                let last = map.last().map_or(kind, |place: &(usize, usize)| place.0);
                while (bytes.len() - start) % 0x10 != 0 {
                    bytes.push(0);
                    map.push((last, PADDING));
                }
                begun = None;
            }
            let before = bytes.len();
            for rec in self.records.iter().filter(|r| r.record == kind && self.revision >= record.least) {
                if record.section.is_none() {
                    begun = begun.or(Some(before));
                }
                map.extend(rec.map());
                bytes.extend(&rec.bytes);
            }
            if let Some(section) = &record.section {
                let field = t.records[head].field(section);
                let old = u32::from_le_bytes(header.bytes[field.offset..field.offset + 4].try_into().unwrap());
                header.set(section, u64::from(old) + (bytes.len() - before) as u64);
            }
        }
        Input { map: header.map().chain(map).collect(), bytes: [&header.bytes[..], &bytes].concat() }
    }
}
