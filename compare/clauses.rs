//! Question 4 as a list of clauses, written from docs/QUESTIONS.md ("A whole state") and the table of rows in docs/ARCHITECTURE.md: what each
//! clause is called, where its field stands and which values it allows. A field that no clause names may hold anything.

/// A renderer's five slices; a float is held as its bits.
#[derive(Clone, PartialEq)]
pub struct State {
    pub words: Vec<u32>,
    pub longs: Vec<u64>,
    pub floats: Vec<u32>,
    pub contexts: Vec<u16>,
    pub history: Vec<u32>,
}

pub const SLICES: [&str; 5] = ["words", "longs", "floats", "contexts", "history"];

impl State {
    /// How long each slice is.
    pub fn lengths(&self) -> [u64; 5] {
        [self.words.len(), self.longs.len(), self.floats.len(), self.contexts.len(), self.history.len()].map(|n| n as u64)
    }
}

/// How many words the parameters take.
pub const PARAMETERS: usize = 10;
pub const SAMPLES: usize = 1;
const BUFFERS: usize = 2;
const SUB_MIXES: usize = 3;
const VOICES: usize = 4;
const SINKS: usize = 5;
const EFFECTS: usize = 6;
const SPLITTERS: usize = 7;
const DESTINATIONS: usize = 8;

/// The counts that the parameters give: name, place, least and most.
const COUNTS: [(&str, usize, i64, i64); 8] = [
    ("samples", SAMPLES, 1, 256),
    ("mix buffers", BUFFERS, 0, 96),
    ("sub-mixes", SUB_MIXES, 0, 31),
    ("voices", VOICES, 0, 64),
    ("sinks", SINKS, 0, 8),
    ("effects", EFFECTS, 0, 64),
    ("splitters", SPLITTERS, 0, 32),
    ("destinations", DESTINATIONS, 0, 128),
];

/// Rows of a kind: the parameter that counts them, how many there are beyond it, the words of a row.
struct Kind {
    counted: usize,
    beyond: u64,
    words: u64,
}

/// The kinds, as their rows follow the parameters in the words.
const KINDS: [Kind; 5] = [
    Kind { counted: VOICES, beyond: 0, words: 58 },
    Kind { counted: SUB_MIXES, beyond: 1, words: 5 },
    Kind { counted: SINKS, beyond: 0, words: 10 },
    Kind { counted: SPLITTERS, beyond: 0, words: 129 },
    Kind { counted: DESTINATIONS, beyond: 0, words: 2 },
];
pub const VOICE: usize = 0;
pub const MIX: usize = 1;
pub const SINK: usize = 2;
pub const SPLITTER: usize = 3;
pub const DESTINATION: usize = 4;

pub const IN_USE: usize = 0;
const MIX_USED: usize = 0;
const MIX_BUFFERS: usize = 1;

/// How many rows of a kind there are.
pub fn rows(p: &[u32], kind: usize) -> u64 {
    u64::from(p[KINDS[kind].counted]) + KINDS[kind].beyond
}

/// The place of a row's field in the words.
pub fn place(p: &[u32], kind: usize, row: u64, field: usize) -> usize {
    let before: u64 = (0..kind).map(|k| rows(p, k) * KINDS[k].words).sum();
    PARAMETERS + (before + row * KINDS[kind].words) as usize + field
}

/// The right lengths of the five slices.
pub fn right_lengths(p: &[u32]) -> [u64; 5] {
    let n = |kind| rows(p, kind);
    let words = (0..5).map(|k| n(k) * KINDS[k].words).sum::<u64>() + PARAMETERS as u64;
    let floats = n(VOICE) * (4 + 48) + n(MIX) * 577 + n(SINK) * 4 + n(DESTINATION) * 48;
    [words, 1 + n(VOICE) * 14, floats, n(VOICE) * 3, n(VOICE) * 18]
}

/// Where a clause's field stands: a parameter, the length of a slice, a word of each row of a kind, or the fraction of each voice.
#[derive(Clone, Copy, PartialEq)]
pub enum Field {
    Parameter(usize),
    Length(usize),
    Word(usize, usize),
    Fraction,
}

/// The values that a clause allows.
#[derive(Clone, Copy)]
pub enum Rule {
    /// From the first number to the second.
    Between(i64, i64),
    /// At most a parameter, or less than it by a number.
    UpTo { parameter: usize, less: i64 },
    /// 1 to 6, and 0 too for a voice that isn't in use.
    Channels,
    /// The sum of the buffers of the mixes before; of all mixes, or (wrong) of those in use.
    Sum { used: bool },
    /// The right length of the slice.
    Right,
    /// A float of which the test is true.
    Float(fn(f32) -> bool),
}

#[derive(Clone)]
pub struct Clause {
    pub name: String,
    pub field: Field,
    pub rule: Rule,
    /// What is added to the rule's least and most value: 0, but in a list that is to be wrong.
    pub shift: [i64; 2],
}

impl Clause {
    /// How many values the clause is about: one for each row, or one.
    pub fn rows(&self, p: &[u32]) -> u64 {
        match self.field {
            Field::Parameter(_) | Field::Length(_) => 1,
            Field::Word(kind, _) => rows(p, kind),
            Field::Fraction => rows(p, VOICE),
        }
    }

    /// The value in a row, if the slices reach so far.
    pub fn value(&self, s: &State, row: u64) -> Option<u32> {
        match self.field {
            Field::Parameter(k) => s.words.get(k).copied(),
            Field::Length(k) => Some(s.lengths()[k] as u32),
            Field::Word(kind, field) => s.words.get(place(&s.words, kind, row, field)).copied(),
            Field::Fraction => s.floats.get(row as usize * 4 + 3).copied(),
        }
    }

    /// The least and the most that is allowed in a row. (For a float this says nothing.)
    pub fn range(&self, s: &State, row: u64) -> (i64, i64) {
        let p = &s.words;
        let word = |kind, row, field| i64::from(p.get(place(p, kind, row, field)).copied().unwrap_or(0));
        let (low, high) = match self.rule {
            Rule::Between(low, high) => (low, high),
            Rule::UpTo { parameter, less } => (0, i64::from(p[parameter]) - less),
            Rule::Channels => (i64::from(word(VOICE, row, IN_USE) != 0), 6),
            Rule::Sum { used } => {
                let counted = |m: &u64| !used || word(MIX, *m, MIX_USED) != 0;
                let sum = (0..row).filter(counted).map(|m| word(MIX, m, MIX_BUFFERS)).sum();
                (sum, sum)
            }
            Rule::Right => {
                let Field::Length(k) = self.field else { panic!("a length") };
                let n = right_lengths(p)[k] as i64;
                (n, n)
            }
            Rule::Float(_) => (0, 0),
        };
        (low + self.shift[0], high + self.shift[1])
    }

    /// Whether a value is allowed in a row.
    pub fn allows(&self, s: &State, row: u64, value: u32) -> bool {
        if let Rule::Float(test) = self.rule {
            return test(f32::from_bits(value));
        }
        let (low, high) = self.range(s, row);
        low <= i64::from(value) && i64::from(value) <= high
    }
}

/// The clauses that a state breaks, a bit for each. Where a slice is cut short, the fields that are left are asked.
pub fn broken(list: &[Clause], s: &State) -> u64 {
    let mut found = 0;
    for (k, c) in list.iter().enumerate() {
        let here = if s.words.len() < PARAMETERS {
            c.field == Field::Length(0)
        } else {
            let values = (0..c.rows(&s.words)).map_while(|row| c.value(s, row).map(|v| (row, v)));
            values.into_iter().any(|(row, v)| !c.allows(s, row, v))
        };
        found |= u64::from(here) << k;
    }
    found
}

/// The list: docs/QUESTIONS.md's, clause by clause.
pub fn list() -> Vec<Clause> {
    let mut list = vec![];
    let mut add = |name: String, field, rule| list.push(Clause { name, field, rule, shift: [0, 0] });
    // "allowed parameters"
    for (name, k, low, high) in COUNTS {
        add(name.into(), Field::Parameter(k), Rule::Between(low, high));
    }
    // "slices of the right length"
    for (k, name) in SLICES.iter().enumerate() {
        add(format!("length of {name}"), Field::Length(k), Rule::Right);
    }
    // "flags 0 or 1"
    let flags = [
        ("voice in use", VOICE, IN_USE),
        ("voice fresh", VOICE, 1),
        ("mix used", MIX, MIX_USED),
        ("sink used", SINK, 0),
        ("sink is a device", SINK, 1),
        ("sink downmix given", SINK, 9),
        ("destination used", DESTINATION, 0),
    ];
    for (name, kind, field) in flags {
        add(name.into(), Field::Word(kind, field), Rule::Between(0, 1));
    }
    for b in 0..4 {
        let wave = 26 + b * 8;
        for (name, field) in [("valid", 18 + b), ("looping", wave + 2), ("end of stream", wave + 3), ("pending", wave + 7)] {
            add(format!("voice buffer {b} {name}"), Field::Word(VOICE, field), Rule::Between(0, 1));
        }
    }
    // "play mark one of the four"
    add("voice play mark".into(), Field::Word(VOICE, 2), Rule::Between(0, 3));
    // "a voice's channels 1..6, or 0 if it isn't in use, current and base slot 0..3, channel numbers below the voice count"
    add("voice channels".into(), Field::Word(VOICE, 5), Rule::Channels);
    add("voice current slot".into(), Field::Word(VOICE, 22), Rule::Between(0, 3));
    add("voice base slot".into(), Field::Word(VOICE, 7), Rule::Between(0, 3));
    for k in 0..6 {
        add(format!("voice channel number {k}"), Field::Word(VOICE, 12 + k), Rule::UpTo { parameter: VOICES, less: 1 });
    }
    // "fraction in [0, 1)": as floats are compared, so that -0 is in it and NaN is not.
    add("voice fraction".into(), Field::Fraction, Rule::Float(|x| 0.0 <= x && x < 1.0));
    // "a mix's buffers at most 24 and its offset the sum of those before it"
    add("mix buffer count".into(), Field::Word(MIX, MIX_BUFFERS), Rule::Between(0, 24));
    add("mix offset".into(), Field::Word(MIX, 4), Rule::Sum { used: false });
    // "a splitter's list no longer than the destination count"
    add("splitter list".into(), Field::Word(SPLITTER, 0), Rule::UpTo { parameter: DESTINATIONS, less: 0 });
    // "a sink's inputs at most 6"
    add("sink inputs".into(), Field::Word(SINK, 2), Rule::Between(0, 6));
    list
}
