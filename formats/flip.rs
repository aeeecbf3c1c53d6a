//! Holds the table of the formats to the proved code: from well-formed updates of every revision each byte of each record is changed.
//!
//! `flip TABLE [first]` prints a line for each record and what is wrong; the last line is "N bytes held, M wrong". With `first` it ends
//! after the first revision in which something is wrong.
mod calls;
mod cases;
mod example;
mod flips;
mod replies;
mod table;
mod title;
use calls::Renderer;
use flips::{Driver, Seen, Tally};
use replies::Replies;
use std::collections::{BTreeMap, BTreeSet};
use table::Table;

/// The last revision whose updates are tried; what holds there is to hold later.
const LAST: u32 = 10;

/// "REV" and the revision's character.
fn word(revision: u32) -> u32 {
    u32::from_le_bytes(*b"REV0") + (revision << 24)
}

#[derive(Default)]
struct Sums {
    bytes: BTreeSet<(usize, usize)>,
    read: BTreeSet<(usize, usize)>,
    acts: BTreeSet<(usize, usize)>,
    changes: BTreeMap<usize, u64>,
    wrong: BTreeMap<(usize, usize), String>,
    /// What is wrong with a case, or with a count.
    faults: BTreeSet<String>,
}

impl Sums {
    /// What a revision's changes showed, held to the table.
    fn judge(&mut self, t: &Table, revision: u32, tally: &Tally) {
        let nested = t.records.iter().flat_map(|r| &r.fields).filter_map(|f| f.record);
        let kinds: BTreeSet<usize> = t.update.iter().copied().chain(nested).chain([t.place("parameters")]).collect();
        let own = kinds.iter().flat_map(|&k| (0..t.records[k].size).map(move |at| (k, at)));
        let leaves = own.filter(|&(k, at)| t.leaf(k, at) == (k, at) && revision >= t.records[k].least);
        for place in leaves.chain(tally.keys().copied()).collect::<BTreeSet<_>>() {
            let (kind, at) = place;
            let (read, acts) = t.masks(kind, at, revision);
            let seen = tally.get(&place).copied().unwrap_or_default();
            self.bytes.insert(place);
            *self.changes.entry(kind).or_default() += seen.changes;
            if seen.read {
                self.read.insert(place);
            }
            if seen.acts {
                self.acts.insert(place);
            }
            for fault in faults(seen, read, acts) {
                let field = t.records.get(kind).and_then(|r| r.holder(at)).map_or("", |f| &f.name);
                let words = format!("{} {at:#x} {field}, revision {revision}: {fault}", t.name(kind));
                self.wrong.entry(place).or_insert(words);
            }
        }
    }
}

fn faults(seen: Seen, read: u8, acts: u8) -> Vec<&'static str> {
    let all = [
        (seen.changes == 0, "never changed"),
        (read != 0 && !seen.read, "read by the table, but nothing differs"),
        (seen.read_amiss, "not read by the table, but something differs"),
        (acts != 0 && !seen.acts, "acts by the table, but no reply or frame differs"),
        (seen.acts_amiss, "does not act by the table, but a reply or a frame differs"),
        // Where the table names single bits, each is one that counts.
        (read != 0xff && seen.bits.0 & read != read, "a bit is read by the table, but nothing differs"),
        (acts != 0xff && seen.bits.1 & acts != acts, "a bit acts by the table, but no reply or frame differs"),
    ];
    all.into_iter().filter(|f| f.0).map(|f| f.1).collect()
}

fn main() {
    let words: Vec<String> = std::env::args().skip(1).collect();
    let text = std::fs::read_to_string(&words[0]).unwrap_or_else(|e| panic!("{}: {e}", words[0]));
    let t = Table::read(&text);
    let memory = cases::memory();
    let (mut sums, mut replies) = (Sums::default(), Replies::new(&t));
    // The word of 0 is above every revision.
    let revisions = (0..=LAST).rev().map(|n| (n, word(n))).chain([(0u32.wrapping_sub(48), 0)]);
    for (revision, word) in revisions {
        let parameters = cases::parameters(&t, word);
        let plain = Renderer::open(&parameters).expect("the parameters are allowed").update(0, &[], 1 << 16).bytes.len();
        let d = Driver { table: &t, memory: &memory, revision, parameters: &parameters, expected: plain as u32 + cases::SHARES };
        let mut tally = Tally::new();
        for case in cases::cases(&t, revision) {
            sums.faults.extend(d.flip(&case, &mut tally, &mut replies));
        }
        let title = example::first(&t, revision, (0, 0), 6);
        sums.faults.extend(d.last_ones(&title.input()));
        let (first, later) = (title.input().bytes, example::later(&title).input().bytes);
        d.flip_parameters(&cases::session(&first, &later), &mut tally);
        replies.more(&d, word, &first, &later);
        sums.judge(&t, revision, &tally);
        let wrong = sums.wrong.len() + sums.faults.len() + replies.wrong.len();
        if wrong != 0 && words.get(1).is_some_and(|w| w == "first") {
            report(&t, &sums, &replies, 0);
        }
    }
    let held = t.reply.iter().map(|&kind| replies.judge(kind)).sum();
    report(&t, &sums, &replies, held);
}

/// What was found: each record, what is wrong, and the sum. `held` is how many bytes of replies are as the table says.
fn report(t: &Table, sums: &Sums, replies: &Replies, held: usize) -> ! {
    let of = |set: &BTreeSet<(usize, usize)>, kind: usize| set.iter().filter(|p| p.0 == kind).count();
    for kind in (0..=t.behind()).filter(|k| !t.reply.contains(k)) {
        let (bytes, read, acts) = (of(&sums.bytes, kind), of(&sums.read, kind), of(&sums.acts, kind));
        println!("{}: {bytes} bytes, {read} read, {acts} act, {} changes", t.name(kind), sums.changes.get(&kind).unwrap_or(&0));
    }
    for &kind in &t.reply {
        let (bytes, written) = replies.bytes_of(kind);
        println!("{}: {bytes} bytes, {written} written", t.name(kind));
    }
    println!("{} replies seen", replies.taken);
    for words in sums.wrong.values().chain(&sums.faults).chain(&replies.wrong).take(40) {
        println!("wrong: {words}");
    }
    let wrong = sums.wrong.len() + sums.faults.len() + replies.wrong.len();
    let right = sums.bytes.iter().filter(|p| p.0 != t.behind() && !sums.wrong.contains_key(p)).count();
    println!("{} bytes held, {wrong} wrong", right + held);
    std::process::exit(i32::from(wrong != 0));
}
