//! The well-formed updates whose bytes are changed, with the calls before and after each, the parameters and sample memory.
use crate::calls::BASE;
use crate::example::{first, later, wave};
use crate::table::Table;
use crate::title::{Input, Random, Rec, Title, f};

pub enum Call {
    Update(Vec<u8>),
    Render,
}

/// An update whose bytes are changed, with the calls before and after it.
pub struct Case {
    pub name: String,
    pub before: Vec<Call>,
    pub input: Input,
    pub after: Vec<Call>,
    /// The records whose bytes are changed; all where it is empty.
    pub only: &'static [&'static str],
}

pub const SAMPLES: usize = 32;
pub const VOICES: usize = 8;
pub const EFFECTS: usize = 2;
/// How many bytes of a reply the effects share.
pub const SHARES: u32 = 0x20;
pub const COEFFICIENTS: u64 = BASE;
pub const CONTEXT: u64 = BASE + 0x40;
pub const INTEGERS: u64 = BASE + 0x100;
pub const FLOATS: u64 = BASE + 0x800;
pub const ADPCM: u64 = BASE + 0x1800;

/// Sample memory: coefficients, a context, 16-bit numbers, floats, ADPCM.
pub fn memory() -> Vec<u8> {
    let mut r = Random(0x5eed_0001);
    let mut m = Vec::new();
    while m.len() < 0x2000 {
        match BASE + m.len() as u64 {
            ADPCM.. => {
                m.push((r.next() % 0x80) as u8 & 0x77);
                m.extend((0..7).map(|_| r.next() as u8));
            }
            FLOATS.. => m.extend(r.float(-0.2, 0.2).to_le_bytes()),
            INTEGERS.. => m.extend(((r.next() % 12001) as i16 - 6000).to_le_bytes()),
            _ => m.extend(((r.next() % 2001) as i16 - 1000).to_le_bytes()),
        }
    }
    m
}

/// The parameters of all cases, with the revision's word.
pub fn parameters(t: &Table, word: u32) -> Vec<u8> {
    let mut p = Rec::new(t, &mut Random(0x5eed_0002), "parameters", 0);
    let sound = [("sample_rate", 48000), ("sample_count", SAMPLES as u64), ("mix_buffers", 60), ("revision", u64::from(word))];
    let counts = [("sub_mixes", 3), ("voices", VOICES as u64), ("sinks", 2), ("effects", EFFECTS as u64)];
    for (name, value) in sound.into_iter().chain(counts).chain([("splitters", 2), ("splitter_destinations", 4)]) {
        p.set(name, value);
    }
    p.bytes
}

/// A short session.
pub fn session(first: &[u8], later: &[u8]) -> Vec<Call> {
    let again = || Call::Update(later.to_vec());
    vec![Call::Update(first.to_vec()), Call::Render, again(), Call::Render, again()]
}

/// Renders and updates that show what an update has left.
fn shown(t: &Title) -> Vec<Call> {
    let again = || Call::Update(later(t).input().bytes);
    vec![Call::Render, again(), Call::Render, Call::Render, again(), Call::Render, again()]
}

fn case(name: &str, before: Vec<Call>, t: &Title, only: &'static [&'static str]) -> Case {
    Case { name: name.to_string(), before, input: t.input(), after: shown(t), only }
}

/// All cases of a revision.
pub fn cases(table: &Table, revision: u32) -> Vec<Case> {
    let whole = first(table, revision, (0, 0), 6);
    let begun = |t: &Title| vec![Call::Update(t.input().bytes), Call::Render];
    let mut out = vec![case("a first update", vec![], &whole, &[])];
    // A second update: another buffer for voice 1, voice 5 flushes again, gains and volumes move.
    let mut second = later(&whole);
    wave(second.all("voice").nth(1).unwrap(), 2, &[("address", INTEGERS), ("data_size", 0x80), ("end", 16)]);
    second.all("voice").nth(5).unwrap().set("flush", 1);
    second.all("voice").for_each(|v| v.set("volume", f(0.5)));
    second.all("channel_resource").for_each(|c| c.nth("gains", 3, f(0.05)));
    out.push(case("a second update", begun(&whole), &second, &[]));
    // One record more than count of each kind that has a count, and bytes behind the last section.
    let mut more = whole.clone();
    for name in ["pool", "channel_resource", "voice", "sink", "mix"] {
        let mut extra = more.all(name).last().unwrap().clone();
        extra.beyond = true;
        // From revision 7 on a record names its mix.
        if name != "mix" || revision < table.record("mix_header").least {
            more.records.push(extra);
        }
    }
    let mut long = case("more than is read", vec![], &more, &["behind the records"]);
    long.input.bytes.extend([0; 0x20]);
    long.input.map.extend((0..0x20).map(|k| (table.behind(), k)));
    out.push(long);
    out.push(case("a sink of two inputs", vec![], &first(table, revision, (0, 0), 2), &["sink"]));
    for (k, &behind) in table.record("destination").padding.iter().enumerate() {
        let lists = table.record("splitter").padding[0] * (k % 2);
        out.push(case("records with padding", vec![], &first(table, revision, (lists, behind), 6), &["splitter", "destination"]));
    }
    // Records behind a count of 0, which only another count reads. A last splitter has its padding.
    let apart = first(table, revision, (table.record("splitter").padding[0], 0), 6);
    for (count, other, kind) in [("splitter_count", "splitter", "destination"), ("destination_count", "destination", "splitter")] {
        let mut before = apart.clone();
        before.drop(&[other]);
        before.all("splitter_header").for_each(|h| h.set(count, 0));
        let mut t = later(&whole);
        t.drop(&[kind, "mix_header", "mix", "sink"]);
        t.all("splitter_header").for_each(|h| ["splitter_count", "destination_count"].iter().for_each(|c| h.set(c, 0)));
        out.push(case("no count of splitters", begun(&before), &t, &["splitter_header"]));
    }
    if revision >= table.record("mix_header").least {
        let mut t = later(&whole);
        t.drop(&["sink"]);
        t.all("mix_header").for_each(|h| h.set("count", 0));
        t.all("mix").for_each(|m| m.set("volume", f(0.25)));
        out.push(case("no count of mixes", begun(&whole), &t, &["mix_header"]));
    }
    out
}
