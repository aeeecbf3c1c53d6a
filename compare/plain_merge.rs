//! A merge of two update blocks in plain Rust, from document 02 and docs/FORMATS.md and from nothing of the port or of kirikae: bytes are
//! read and written here. The driver `merge` holds the port to it, and to wrong variants (wrong_merges.rs), each of which it must notice.
use crate::wrong_merges::Wrong;
use std::borrow::Cow;

pub const HEADER: usize = 0x40;
pub const RESOURCE: usize = 0x70;
pub const VOICE: usize = 0x170;
/// Where the sizes of sections stand in the header.
pub const BEHAVIOUR: usize = 0x04;
pub const POOLS: usize = 0x08;
pub const VOICES: usize = 0x0c;
pub const RESOURCES: usize = 0x10;
pub const EFFECTS: usize = 0x14;
/// Where the counts of question 2 stand in the parameters, and the most that each may be; the voices are the third.
pub const COUNTS: [(usize, u32); 7] = [(0x08, 96), (0x0c, 31), (0x10, 64), (0x14, 8), (0x18, 64), (0x24, 32), (0x28, 128)];
/// Channels that a voice plays at most, and where their numbers stand in its record, behind where their count does.
pub const CHANNELS: usize = 6;
pub const IDS: usize = 0x140;
pub const COUNT: usize = 0x18;

/// What a call is given.
pub struct Call<'a> {
    pub parameters: &'a [u8],
    pub title: &'a [u8],
    pub click: &'a [u8],
    pub output: &'a [u8],
}

/// What a merge answers, and what its output becomes.
pub struct Merged {
    pub number: u32,
    pub size: usize,
    pub output: Vec<u8>,
}

/// The 32-bit number at a place; 0 where its four bytes are not all there.
pub fn number(d: &[u8], at: usize) -> u32 {
    if at + 4 > d.len() { 0 } else { (0..4).rev().fold(0, |n, k| n << 8 | u32::from(d[at + k])) }
}

fn put(d: &mut [u8], at: usize, n: u32) {
    (0..4).for_each(|k| d[at + k] = (n >> (8 * k)) as u8);
}

/// So many bytes from a place on, missing ones as 0.
fn padded(d: &[u8], from: usize, count: usize, wrong: Wrong) -> Vec<u8> {
    let missing = if wrong == Wrong::MissingBytesAre255 { 255 } else { 0 };
    (from..from + count).map(|at| d.get(at).copied().unwrap_or(missing)).collect()
}

/// A block as an update reads it: its resources and voices, each empty where it reaches past the block's end, and where its effects begin.
pub struct Block<'a> {
    pub bytes: &'a [u8],
    pub resources: &'a [u8],
    pub voices: &'a [u8],
    pub effects: u64,
}

impl Block<'_> {
    pub fn new(bytes: &[u8], wrong: Wrong) -> Block<'_> {
        let size = |at| u64::from(number(bytes, at));
        let resources = HEADER as u64 + size(BEHAVIOUR) + size(POOLS);
        let voices = resources + size(RESOURCES);
        let effects = voices + size(VOICES);
        let end = bytes.len() as u64;
        let section = |from: u64, to: u64, cut: bool| match to <= end {
            true => &bytes[from as usize..to as usize],
            false if cut => &bytes[from.min(end) as usize..],
            false => &[],
        };
        let cut = |what| wrong == what;
        Block {
            bytes,
            resources: section(resources, voices, cut(Wrong::ResourcesPastTheEndCut)),
            voices: section(voices, effects, cut(Wrong::VoicesPastTheEndCut)),
            effects,
        }
    }

    /// Voice k's record if it is in use; one that is cut short is none.
    pub fn record(&self, k: usize, wrong: Wrong) -> Option<Cow<'_, [u8]>> {
        let e = match self.voices.get(k * VOICE..(k + 1) * VOICE) {
            None if wrong == Wrong::CutRecordTaken => Cow::from(padded(self.voices, k * VOICE, VOICE, wrong)),
            e => Cow::from(e?),
        };
        let used = match wrong {
            Wrong::UsedIsOne => e[9] == 1,
            Wrong::UsedByTheByteBefore => e[8] != 0,
            _ => e[9] != 0,
        };
        used.then_some(e)
    }

    /// The numbers that the voices in use of n name.
    pub fn named(&self, n: usize, wrong: Wrong) -> Vec<bool> {
        let mut named = vec![false; n];
        for k in 0..n {
            let unused = if wrong == Wrong::UnusedNamesToo { self.voices.get(k * VOICE..(k + 1) * VOICE) } else { None };
            let e = self.record(k, wrong).or(unused.map(Cow::from));
            let ids = e.map_or(vec![], |e| ids(&e, k, n, wrong));
            ids.into_iter().filter_map(|id| usize::try_from(id).ok()).filter(|&j| j < n).for_each(|j| named[j] = true);
        }
        named
    }
}

/// How many channels a record plays.
pub fn channels(e: &[u8], wrong: Wrong) -> usize {
    let count = number(e, COUNT) as usize;
    match wrong {
        Wrong::SixChannels => CHANNELS,
        Wrong::OneChannel => 1,
        Wrong::NoChannelAt0 => count.min(CHANNELS),
        Wrong::EightChannels => count.clamp(1, 8),
        _ => count.clamp(1, CHANNELS),
    }
}

/// The numbers that record k of n names, as an update reads them: below 0 as 0, past the last as the last.
fn ids(e: &[u8], k: usize, n: usize, wrong: Wrong) -> Vec<i64> {
    let (last, read) = (n as i64 - 1, |c: usize| i64::from(number(e, IDS + 4 * c) as i32));
    let first = usize::from(wrong == Wrong::FirstChannelPassedOver);
    (first..channels(e, wrong))
        .map(|c| match wrong {
            Wrong::IdsNotClamped => read(c),
            Wrong::IdsPastTheLastNotClamped => read(c).max(0),
            Wrong::IdsBelow0NotClamped => read(c).min(last),
            Wrong::IdsBelow0AreLast => (read(c) & 0xffff_ffff).min(last),
            Wrong::IdsAsBytes => (read(c) & 0xff).min(last),
            Wrong::IdsModulo => read(c).rem_euclid(last + 1),
            Wrong::IdOfTheVoice => k as i64,
            _ => read(c).clamp(0, last),
        })
        .collect()
}

/// The header as it is written.
fn header(call: &Call, n: usize, wrong: Wrong) -> Vec<u8> {
    let from = if wrong == Wrong::HeaderOfTheClick { call.click } else { call.title };
    let mut header = padded(from, 0, HEADER, wrong);
    if wrong == Wrong::ShortHeaderIsNone && call.title.len() < HEADER {
        header.fill(0);
    }
    let (mut voices, mut resources) = ((n * VOICE) as u32, (n * RESOURCE) as u32);
    if wrong == Wrong::SizesExchanged {
        (voices, resources) = (resources, voices);
    }
    if ![Wrong::TitlesSizesStay, Wrong::VoicesSizeStays].contains(&wrong) {
        put(&mut header, VOICES, voices);
    }
    if ![Wrong::TitlesSizesStay, Wrong::ResourcesSizeStays].contains(&wrong) {
        put(&mut header, RESOURCES, resources);
    }
    header
}

/// The bytes of behaviour and pools, by the header as it is written; and those of the title from its effects on.
fn sizes<'a>(call: &Call<'a>, n: usize, wrong: Wrong) -> (u64, &'a [u8]) {
    let written = header(call, n, wrong);
    let by = if wrong == Wrong::SizesAsTheTitleReads { call.title } else { &written };
    let middle = u64::from(number(by, BEHAVIOUR)) + u64::from(number(by, POOLS));
    let title = Block::new(call.title, Wrong::Nothing);
    let rest = match wrong {
        Wrong::EffectsBehindAllVoices => HEADER as u64 + middle + (n * (RESOURCE + VOICE)) as u64,
        Wrong::EffectsLeftOut => title.effects + u64::from(number(call.title, EFFECTS)),
        Wrong::NothingBehindTheVoices => u64::MAX,
        _ => title.effects,
    };
    (middle, call.title.get(rest as usize..).unwrap_or_default())
}

/// How many bytes the merged block has.
pub fn length(call: &Call, wrong: Wrong) -> u64 {
    let n = number(call.parameters, COUNTS[2].0) as usize;
    let (middle, rest) = sizes(call, n, wrong);
    let all = HEADER as u64 + middle + (n * (RESOURCE + VOICE)) as u64 + rest.len() as u64;
    if wrong == Wrong::LengthIn32Bits { all & 0xffff_ffff } else { all }
}

/// All questions that are answered "no", in their sequence. Without a count of voices that is allowed there are no others than 2.
pub fn reasons(call: &Call, wrong: Wrong) -> Vec<u32> {
    let n = number(call.parameters, COUNTS[2].0) as usize;
    let samples = number(call.parameters, 0x04);
    let asked = if wrong == Wrong::VoicesAloneCounted { &COUNTS[2..3] } else { &COUNTS[..] };
    let over = |&(at, most): &(usize, u32)| number(call.parameters, at) > most;
    let mut reasons = vec![];
    if wrong == Wrong::QuestionOneAsked && !(1..=256).contains(&samples) {
        reasons.push(1);
    }
    if asked.iter().any(over) {
        reasons.push(2);
    }
    if n > COUNTS[2].1 as usize {
        return reasons;
    }
    let (title, click) = (Block::new(call.title, wrong), Block::new(call.click, wrong));
    if (0..n).any(|k| title.record(k, wrong).is_some() && click.record(k, wrong).is_some()) {
        reasons.push(16);
    }
    if title.named(n, wrong).iter().zip(click.named(n, wrong)).any(|(&a, b)| a && b) {
        reasons.push(17);
    }
    let room = call.output.len() as u64;
    let short = match wrong {
        Wrong::RoomOneMore => length(call, wrong) >= room,
        Wrong::RoomOneLess => length(call, wrong) > room + 1,
        Wrong::RoomOfTheTitle => (call.title.len() + n * (RESOURCE + VOICE)) as u64 > room,
        _ => length(call, wrong) > room,
    };
    if short {
        reasons.push(18);
    }
    wrong.sequence(&mut reasons);
    reasons
}

/// Resource j: the click's where the click names it, else the title's.
fn resource(j: usize, title: &Block, click: &Block, named: (bool, bool), wrong: Wrong) -> Vec<u8> {
    let by_click = match wrong {
        Wrong::ResourcesOfTheTitle => false,
        Wrong::ResourcesOfTheClick => true,
        Wrong::NeithersOfTheClick => !named.0,
        Wrong::OfTheOtherBlock => !named.1,
        _ => named.1,
    };
    let from = if by_click { click } else { title }.resources;
    match (wrong, from.get(j * RESOURCE..(j + 1) * RESOURCE)) {
        (Wrong::CutResourceIsNone, None) => vec![0; RESOURCE],
        (Wrong::CutResourceOfTheOther, None) => padded(if by_click { title } else { click }.resources, j * RESOURCE, RESOURCE, wrong),
        (Wrong::NeithersAreZeros, _) if named == (false, false) => vec![0; RESOURCE],
        (Wrong::GainsAlone, Some(e)) => [&[0; 4], &e[4..0x64], &[0; 12]].concat(),
        _ => padded(from, j * RESOURCE, RESOURCE, wrong),
    }
}

/// Record k: the one in use, or zeros.
fn voice(k: usize, title: &Block, click: &Block, wrong: Wrong) -> Vec<u8> {
    let kept = |d: &Block| d.voices.get(k * VOICE..(k + 1) * VOICE).map(<[u8]>::to_vec);
    match (title.record(k, wrong), click.record(k, wrong)) {
        (Some(e), _) => e.into_owned(),
        (None, Some(_)) if wrong == Wrong::VoicesOfTheTitle => vec![0; VOICE],
        (None, Some(e)) => e.into_owned(),
        (None, None) if wrong == Wrong::TitlesUnusedKept => kept(title).unwrap_or(vec![0; VOICE]),
        (None, None) if wrong == Wrong::ClicksUnusedKept => kept(click).unwrap_or(vec![0; VOICE]),
        (None, None) => vec![0; VOICE],
    }
}

/// The merged block, of a length that fits the output.
fn block(call: &Call, wrong: Wrong) -> Vec<u8> {
    let n = number(call.parameters, COUNTS[2].0) as usize;
    let (title, click) = (Block::new(call.title, wrong), Block::new(call.click, wrong));
    let (middle, rest) = sizes(call, n, wrong);
    let mut written = header(call, n, wrong);
    let from = if wrong == Wrong::PoolsOfTheClick { call.click } else { call.title };
    let none = wrong == Wrong::CutPoolsAreNone && HEADER as u64 + middle > from.len() as u64;
    written.extend(padded(if none { &[] } else { from }, HEADER, middle as usize, wrong));
    let named: Vec<(bool, bool)> = title.named(n, wrong).into_iter().zip(click.named(n, wrong)).collect();
    let resources = (0..n).flat_map(|j| resource(j, &title, &click, named[j], wrong));
    let voices = (0..n).flat_map(|k| voice(k, &title, &click, wrong));
    if wrong == Wrong::VoicesBeforeResources {
        written.extend(voices.chain(resources));
    } else {
        written.extend(resources.chain(voices));
    }
    written.extend(rest);
    if wrong == Wrong::TotalRewritten {
        let total = written.len() as u32;
        put(&mut written, 0x3c, total);
    }
    written
}

/// One merge.
pub fn merge(call: &Call, wrong: Wrong) -> Merged {
    let mut merged = Merged { number: 0, size: 0, output: call.output.to_vec() };
    merged.number = reasons(call, wrong).first().copied().unwrap_or(0);
    if merged.number == 0 {
        merged.size = length(call, wrong) as usize;
        // A variant that doesn't ask 18 rightly may have gigabytes to write.
        if length(call, Wrong::Nothing).max(length(call, wrong)) <= call.output.len().max(1 << 20) as u64 {
            let written = block(call, wrong);
            let count = written.len().min(merged.output.len());
            merged.output[..count].copy_from_slice(&written[..count]);
        }
    }
    wrong.spoil(&mut merged, call);
    merged
}
