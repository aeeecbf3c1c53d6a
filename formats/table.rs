//! The table of the formats (formats/table.txt), as the driver needs it: where each field stands, and which bytes are read.

/// Revisions from `least` on, and the bits that count.
#[derive(Clone, Copy, Debug)]
pub struct Which {
    pub least: u32,
    pub mask: u64,
}

/// What a field of a reply holds.
#[derive(Clone, Copy, Debug, PartialEq)]
pub enum Holds {
    Any,
    Always(u64),
    Range(u64, u64),
}

#[derive(Debug)]
pub struct Field {
    pub offset: usize,
    pub width: usize,
    /// The width of one of its elements, and the record that each is, if it is one.
    pub one: usize,
    pub record: Option<usize>,
    /// Empty where nothing reads or writes it.
    pub name: String,
    pub read: Which,
    pub acts: Which,
    pub holds: Holds,
    pub values: Vec<(String, u64)>,
}

#[derive(Debug)]
pub struct Record {
    pub name: String,
    pub size: usize,
    /// The title chooses how many bytes follow; or so many follow for each of a field's number.
    pub open: bool,
    pub each: Option<(usize, String)>,
    pub padding: Vec<usize>,
    count: String,
    pub section: Option<String>,
    pub least: u32,
    pub fields: Vec<Field>,
}

#[derive(Debug)]
pub struct Table {
    pub records: Vec<Record>,
    pub update: Vec<usize>,
    pub reply: Vec<usize>,
}

/// Bytes of padding count from here on.
pub const PADDING: usize = 1 << 20;

const NEVER: Which = Which { least: u32::MAX, mask: 0 };

fn number(text: &str) -> u64 {
    let n = text.strip_prefix("0x").map_or(text.parse().ok(), |hex| u64::from_str_radix(hex, 16).ok());
    n.unwrap_or_else(|| panic!("`{text}` is no number"))
}

fn which(text: &str) -> Which {
    let (revisions, mask) = text.split_once(" & ").unwrap_or((text, "0xffffffffffffffff"));
    let least = if revisions == "all" { 0 } else { number(revisions.strip_suffix("..").expect("revisions end in ..")) as u32 };
    Which { least, mask: number(mask) }
}

fn holds(text: &str) -> Holds {
    if let Some(n) = text.strip_prefix("= ") {
        return Holds::Always(number(n));
    }
    text.split_once("..").map_or(Holds::Any, |(a, b)| Holds::Range(number(a), number(b)))
}

impl Record {
    fn new(name: &str) -> Record {
        let (name, count) = (name.to_string(), String::new());
        Record { name, size: 0, open: false, each: None, padding: Vec::new(), count, section: None, least: 0, fields: Vec::new() }
    }

    fn key(&mut self, key: &str, value: &str) {
        match key {
            "size" => {
                let (fixed, each) = value.split_once(" + ").map_or((value, None), |(n, each)| (n, each.split_once(" * ")));
                self.open = fixed.starts_with("least ");
                self.size = number(fixed.trim_start_matches("least ")) as usize;
                self.each = each.map(|(n, name)| (number(n) as usize, name.to_string()));
            }
            "padding" => self.padding = value.split(' ').map(|n| number(n) as usize).collect(),
            "count" => self.count = value.to_string(),
            "section" => self.section = Some(value.to_string()),
            "revisions" => self.least = which(value).least,
            _ => {}
        }
    }

    pub fn field(&self, name: &str) -> &Field {
        self.fields.iter().find(|f| f.name == name).unwrap_or_else(|| panic!("{} has no field {name}", self.name))
    }

    /// The field that has a byte; none behind the last, or in the padding.
    pub fn holder(&self, at: usize) -> Option<&Field> {
        self.fields.iter().find(|f| (f.offset..f.offset + f.width).contains(&at))
    }

    fn masks(&self, at: usize, revision: u32) -> (u8, u8) {
        let Some(f) = self.holder(at) else { return (0, 0) };
        let bits = |w: Which| if revision >= w.least { (w.mask >> (8 * ((at - f.offset) % f.one).min(7))) as u8 } else { 0 };
        (bits(f.read), bits(f.acts))
    }
}

impl Table {
    pub fn read(text: &str) -> Table {
        let mut t = Table { records: Vec::new(), update: Vec::new(), reply: Vec::new() };
        let names: Vec<&str> = text.lines().filter_map(|l| l.strip_prefix("record ")).collect();
        let place = |name: &str| names.iter().position(|&n| n == name);
        let sequence = |words: &str| words.split(' ').map(|n| place(n).unwrap_or_else(|| panic!("there is no record {n}"))).collect();
        for line in text.lines().filter(|l| !l.is_empty() && !l.starts_with('#') && !l.starts_with(' ')) {
            if let Some(words) = line.strip_prefix("sequence update: ") {
                t.update = sequence(words);
            } else if let Some(words) = line.strip_prefix("sequence reply: ") {
                t.reply = sequence(words);
            } else if let Some(name) = line.strip_prefix("record ") {
                t.records.push(Record::new(name));
            } else {
                let reply = t.reply.contains(&(t.records.len() - 1));
                t.records.last_mut().expect("a line stands in a record").line(line, reply, place);
            }
        }
        // An element that is a record is as wide as that.
        let sizes: Vec<usize> = t.records.iter().map(|r| r.size).collect();
        for f in t.records.iter_mut().flat_map(|r| &mut r.fields) {
            f.one = f.record.map_or(f.one, |r| sizes[r]);
        }
        t
    }

    pub fn place(&self, name: &str) -> usize {
        self.records.iter().position(|r| r.name == name).unwrap_or_else(|| panic!("there is no record {name}"))
    }

    /// The number for bytes that stand in no record: behind the last of a kind, or behind all.
    pub fn behind(&self) -> usize {
        self.records.len()
    }

    /// The bits of a record's byte that are read, and those that act, in a revision.
    pub fn masks(&self, record: usize, at: usize, revision: u32) -> (u8, u8) {
        self.records.get(record).map_or((0, 0), |r| r.masks(at, revision))
    }

    pub fn name(&self, record: usize) -> &str {
        self.records.get(record).map_or("behind the records", |r| &r.name)
    }

    /// How many records of a kind there are: a sum of products of numbers and fields of the parameters. None where a record says it.
    pub fn count(&self, record: usize, parameters: &[u8]) -> Option<usize> {
        let field = |word: &str| self.record("parameters").fields.iter().find(|f| f.name == word);
        let number = |f: &Field| parameters[f.offset..].iter().take(4).rev().fold(0, |n, &b| n << 8 | usize::from(b));
        let factor = |word: &str| word.parse().ok().or_else(|| field(word).map(number));
        let product = |words: &str| words.split(" * ").map(factor).product::<Option<usize>>();
        self.records[record].count.split(" + ").map(product).sum()
    }

    pub fn record(&self, name: &str) -> &Record {
        &self.records[self.place(name)]
    }

    /// The record and the offset that a byte has where the field that holds it is made of records.
    pub fn leaf(&self, record: usize, at: usize) -> (usize, usize) {
        match self.records[record].holder(at) {
            Some(Field { record: Some(inner), offset, one, .. }) => self.leaf(*inner, (at - offset) % one),
            _ => (record, at),
        }
    }
}

impl Record {
    /// A line of the record: a field, a value of the last field, or a key.
    fn line(&mut self, line: &str, reply: bool, place: impl Fn(&str) -> Option<usize>) {
        let cells: Vec<&str> = line.split(" | ").map(str::trim).collect();
        if let Some(name) = line.strip_prefix("= ").and_then(|_| cells[0].strip_prefix("= ")) {
            self.fields.last_mut().expect("a value has a field").values.push((name.to_string(), number(cells[1])));
        } else if cells.len() >= 3 {
            let offset = number(cells[0]) as usize;
            let (base, _) = cells[2].split_once('[').unwrap_or((cells[2], ""));
            let one = match base {
                "u16" => 2,
                "u32" | "i32" | "f32" => 4,
                "u64" => 8,
                _ => 1,
            };
            let width = if cells[1].contains('*') { PADDING - offset } else { number(cells[1]) as usize };
            let (record, holds_any, values) = (place(base), Holds::Any, Vec::new());
            let mut f = Field { offset, width, one, record, name: String::new(), read: NEVER, acts: NEVER, holds: holds_any, values };
            if cells.len() >= 7 {
                f.name = cells[5].to_string();
                f.read = which(cells[3]);
                f.acts = if reply { f.read } else { which(cells[4]) };
                f.holds = if reply { holds(cells[4]) } else { Holds::Any };
            }
            self.fields.push(f);
        } else if let Some((key, value)) = line.split_once(": ") {
            self.key(key, value);
        }
    }
}
