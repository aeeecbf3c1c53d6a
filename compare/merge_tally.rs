//! What a run of the driver `merge` has tried, and what it has not.
use crate::merge_kinds::{KINDS, SIDES};
use crate::plain_merge::{BEHAVIOUR, COUNT, COUNTS, EFFECTS, HEADER, IDS, POOLS, RESOURCE, RESOURCES, VOICE, VOICES};
use crate::plain_merge::{Block, Call, Merged, channels, length, number, reasons};
use crate::wrong_merges::Wrong;
use std::collections::BTreeMap;

/// Blocks of 0 to this many bytes are all tried, each as title and as click.
pub const LENGTHS: usize = 0x48;
/// And parameters of 0 to this many.
pub const PARAMETERS: usize = 0x38;
const RIGHT: Wrong = Wrong::Nothing;

/// Counts by a number, from 0 on.
struct List {
    name: &'static str,
    counts: Vec<u64>,
}

pub struct Tally {
    kinds: BTreeMap<&'static str, u64>,
    sides: [BTreeMap<&'static str, u64>; 2],
    /// Titles and clicks by their length; parameters by theirs; voices; counts that 2 refuses; channel counts of each block, 8 for more.
    lists: Vec<List>,
    pub compared: u64,
    pub differ: u64,
}

const TITLES: usize = 0;
const GIVEN: usize = 2;
const OF_VOICES: usize = 3;
const REFUSED: usize = 4;
const PLAYED: usize = 5;

impl Tally {
    /// Nothing counted yet.
    pub fn new() -> Tally {
        let list = |name, count: usize| List { name, counts: vec![0; count] };
        Tally {
            kinds: KINDS.iter().map(|&kind| (kind, 0)).collect(),
            sides: [(); 2].map(|()| SIDES.iter().map(|&kind| (kind, 0)).collect()),
            lists: vec![
                list("titles by their length", LENGTHS + 1),
                list("clicks by their length", LENGTHS + 1),
                list("parameters by their length", PARAMETERS + 1),
                list("merges by their voices", COUNTS[2].1 as usize + 1),
                list("calls that 2 refuses for one count, by which", COUNTS.len()),
                list("records of titles by their channels, 8 for more than 7", 9),
                list("records of clicks by their channels, 8 for more than 7", 9),
            ],
            compared: 0,
            differ: 0,
        }
    }

    /// Counts one of a kind.
    pub fn hit(&mut self, kind: &str, is: bool) {
        *self.kinds.get_mut(kind).unwrap_or_else(|| panic!("no such kind: {kind}")) += u64::from(is);
    }

    fn side(&mut self, side: usize, kind: &str, is: bool) {
        *self.sides[side].get_mut(kind).unwrap_or_else(|| panic!("no such kind: {kind}")) += u64::from(is);
    }

    fn list(&mut self, list: usize, k: usize) {
        if let Some(count) = self.lists[list].counts.get_mut(k) {
            *count += 1;
        }
    }

    /// Counts a call by what it is given and by what the plain merge answers.
    pub fn call(&mut self, call: &Call, due: &Merged) {
        self.list(TITLES, call.title.len());
        self.list(TITLES + 1, call.click.len());
        self.list(GIVEN, call.parameters.len());
        self.refusals(call, due);
        if due.number != 0 {
            return;
        }
        let n = number(call.parameters, COUNTS[2].0) as usize;
        let (samples, blocks) = (number(call.parameters, 0x04), [Block::new(call.title, RIGHT), Block::new(call.click, RIGHT)]);
        let cut = [BEHAVIOUR, POOLS, VOICES, RESOURCES, EFFECTS].iter().any(|at| (at + 1..at + 4).contains(&call.title.len()));
        let written = |at: usize| (at..at + 4).any(|k| call.title.get(k).is_some_and(|&b| b != 0)) && number(call.title, at) == 0;
        let end = call.title.len() as u64;
        for (kind, is) in [
            ("merges that should succeed", true),
            ("with samples 0", samples == 0),
            ("with samples above 256", samples > 256),
            ("without voices, and a record in use in a block", n == 0 && blocks.iter().any(|d| d.record(0, RIGHT).is_some())),
            ("64 voices", n == 64),
            ("with just enough output", call.output.len() == due.size),
            ("with more output", call.output.len() > due.size),
            ("an empty title", call.title.is_empty() && !call.click.is_empty()),
            ("an empty click", call.click.is_empty() && !call.title.is_empty()),
            ("both empty", call.title.is_empty() && call.click.is_empty()),
            ("the same slice as title and click", std::ptr::eq(call.title, call.click) && !call.title.is_empty()),
            ("a title in which a size is cut short", cut),
            ("a title of less than a header, with bytes in the pools that are written", written(BEHAVIOUR) || written(POOLS)),
            ("a title whose effects begin past its end", blocks[0].effects > end),
            ("a title whose effects begin at its end", blocks[0].effects == end),
            ("a title with bytes from its effects on", blocks[0].effects < end),
        ] {
            self.hit(kind, is);
        }
        self.list(OF_VOICES, n);
        for wrong in [Wrong::SixChannels, Wrong::UnusedNamesToo, Wrong::CutRecordTaken] {
            let kind = match wrong {
                Wrong::SixChannels => "only as six channels are not named",
                Wrong::UnusedNamesToo => "only as records not in use name nothing",
                _ => "only as a record cut short is none",
            };
            let refused = reasons(call, wrong);
            self.hit(kind, refused.contains(&16) || refused.contains(&17));
        }
        let behind = (n..n + 2).any(|k| blocks.iter().all(|d| d.record(k, RIGHT).is_some()));
        self.hit("only as records behind the count are not looked at", behind);
        self.resources(&blocks, n);
        for (side, block) in blocks.iter().enumerate() {
            self.block(side, block, n);
        }
    }

    /// Counts all questions that are answered "no".
    fn refusals(&mut self, call: &Call, due: &Merged) {
        let all = reasons(call, RIGHT);
        let two: Vec<usize> = (0..COUNTS.len()).filter(|&k| number(call.parameters, COUNTS[k].0) > COUNTS[k].1).collect();
        if let [k] = two[..] {
            self.list(REFUSED, k);
        }
        for by in [2, 16, 17, 18] {
            self.hit(&format!("refused by {by}"), due.number == by);
            for and in [16, 17, 18] {
                if by < and {
                    self.hit(&format!("{by} and {and} at once"), all == [by, and]);
                }
            }
        }
        self.hit("16, 17 and 18 at once", all == [16, 17, 18]);
        self.hit("all four at once", all == [2, 16, 17, 18]);
        let clamped = due.number == 17 && !reasons(call, Wrong::IdsNotClamped).contains(&17);
        self.hit("17 by numbers that differ and are clamped to one", clamped);
        if due.number == 18 {
            let (needed, room) = (length(call, RIGHT), call.output.len() as u64);
            let sizes = [BEHAVIOUR, POOLS].map(|at| number(call.title, at));
            self.hit("refused by 18 with an output one byte short", needed == room + 1);
            self.hit("refused by 18 without output", room == 0);
            self.hit("refused by 18 for 2^32 bytes and more", needed >> 32 != 0);
            self.hit("refused by 18 for bytes that would fit modulo 2^32", needed & 0xffff_ffff <= room);
            self.hit("refused by 18 with behaviour and pools of 2^32 - 1 bytes each", sizes == [u32::MAX; 2]);
        }
    }

    /// Counts resources by who names them, of those that both blocks have.
    fn resources(&mut self, blocks: &[Block; 2], n: usize) {
        let named = [blocks[0].named(n, RIGHT), blocks[1].named(n, RIGHT)];
        for j in 0..n {
            let both = blocks.iter().all(|d| d.resources.len() >= (j + 1) * RESOURCE);
            self.hit("a resource that the click names and both have", both && named[1][j]);
            self.hit("a resource that the title names and both have", both && named[0][j]);
            self.hit("a resource that neither names and both have", both && !named[0][j] && !named[1][j]);
            let side = usize::from(named[1][j]);
            let (from, to) = (j * RESOURCE, (j + 1) * RESOURCE);
            self.side(side, "a resource that is whole", blocks[side].resources.len() >= to);
            self.side(side, "a resource that is cut short", (from + 1..to).contains(&blocks[side].resources.len()));
            self.side(side, "a resource that is missing", blocks[side].resources.len() <= from);
        }
    }

    /// Counts a block of a merge that should succeed: where it ends, its sizes and its records.
    fn block(&mut self, side: usize, block: &Block, n: usize) {
        let (size, bytes) = (|at| u64::from(number(block.bytes, at)), block.bytes.len() as u64);
        let mut end = 0;
        let sizes = [HEADER as u64, size(BEHAVIOUR), size(POOLS), size(RESOURCES), size(VOICES), size(EFFECTS), u64::MAX >> 1];
        for (kind, size) in SIDES.iter().zip(sizes) {
            self.side(side, kind, (end..end + size).contains(&bytes));
            end += size;
        }
        let (resources, voices) = ((n * RESOURCE) as u64, (n * VOICE) as u64);
        self.side(side, "resources of less than the count", size(RESOURCES) < resources);
        self.side(side, "resources of more than the count", size(RESOURCES) > resources);
        self.side(side, "voices of less than the count", size(VOICES) < voices);
        self.side(side, "voices of more than the count", size(VOICES) > voices);
        self.side(side, "a size of 2^31 and more", sizes[1..5].iter().any(|s| s >> 31 != 0));
        for k in 0..n {
            let e = &block.voices[(k * VOICE).min(block.voices.len())..];
            let whole = e.len() >= VOICE;
            let e = &e[..e.len().min(VOICE)];
            self.side(side, "not in use, with other bytes set", whole && e[9] == 0 && e.iter().any(|&b| b != 0));
            self.side(side, "cut short, with its byte in use set", !whole && e.get(9).is_some_and(|&b| b != 0));
            if let Some(e) = block.record(k, RIGHT) {
                self.record(side, &e, n);
            }
        }
    }

    /// Counts a record in use, and the numbers of the channels that it plays.
    fn record(&mut self, side: usize, e: &[u8], n: usize) {
        let count = channels(e, RIGHT);
        let ids: Vec<i32> = (0..count).map(|c| number(e, IDS + 4 * c) as i32).collect();
        let read = |id: &i32| (*id).clamp(0, n as i32 - 1);
        let twice = (0..count).any(|c| ids[..c].iter().any(|id| read(id) == read(&ids[c])));
        self.list(PLAYED + side, number(e, COUNT).min(8) as usize);
        self.side(side, "a record in use", true);
        self.side(side, "in use by a byte that isn't 1", e[9] != 1);
        self.side(side, "names a channel twice", twice);
        self.side(side, "names the first by a number below 0", n > 1 && ids.iter().any(|&id| id < 0));
        self.side(side, "names the last by a number past it", n > 1 && ids.iter().any(|&id| id >= n as i32));
        self.side(side, "names by the lowest number", ids.contains(&i32::MIN));
        self.side(side, "names by the highest number", ids.contains(&i32::MAX));
    }

    /// Prints the counts, and what should have been reached and never was; whether there is such a thing.
    pub fn print(&self) -> bool {
        let mut never = vec![];
        for kind in KINDS {
            println!("{kind}: {}", self.kinds[kind]);
            never.extend((self.kinds[kind] == 0).then(|| kind.to_string()));
        }
        for kind in SIDES {
            let [title, click] = [0, 1].map(|side: usize| self.sides[side][kind]);
            println!("{kind}: {title} of titles, {click} of clicks");
            never.extend((title == 0).then(|| format!("{kind}, of a title")));
            never.extend((click == 0).then(|| format!("{kind}, of a click")));
        }
        for List { name, counts } in &self.lists {
            println!("{name}, 0 to {}: at least {} of each", counts.len() - 1, counts.iter().min().expect("counts"));
            never.extend(counts.iter().enumerate().filter(|&(_, &n)| n == 0).map(|(k, _)| format!("{name}: {k}")));
        }
        for name in &never {
            println!("never reached: {name}");
        }
        !never.is_empty()
    }
}
