//! Holds `flush`, `prepare` and `fetch` to kirikae's mixer.rs, by a voice's rows: every field, the rows for the resampler and the rounds;
//! and the turns of a flush to document 02, the lesser of four and the flush count.
//!
//! `voice [SEED [COUNT]]` compares flush counts of 0 to 40 with every base slot and index, then COUNT random voices and memories, with the
//! counters at their limits and flush counts of about a million among them. It fails where a number of turns or a play mark was not
//! reached. `voice limits` compares the largest flush count, of which the Rust walks all 2^32 - 1 turns, for every base slot and every
//! play mark (a minute and a half).
#[allow(dead_code)]
mod generate;
mod probed;
mod random;
use generate::{BASE, BASE_INDEX, CONSUMED, FLUSH, INDEX, PLAY, rows};
use oracle::mixer::probe::{FLOATS, LONGS, Probe, Rows, WORDS};
use oracle::{Memory, take_rounds};
use probed::ProbeContext;
use random::{Random, bits};

unsafe extern "C" {
    fn probe_prepare(
        words: *mut u32, words_len: usize, longs: *mut u64, longs_len: usize, floats: *mut f32, floats_len: usize, contexts: *mut u16,
        contexts_len: usize, history: *mut f32, history_len: usize,
    ) -> u32;
    fn probe_flush(
        words: *mut u32, words_len: usize, longs: *mut u64, longs_len: usize, floats: *mut f32, floats_len: usize, count: u32,
    ) -> u32;
    fn probe_plan(
        words: *mut u32, words_len: usize, longs: *mut u64, longs_len: usize, floats: *mut f32, floats_len: usize, base: u64, size: u64,
        count: u32, buffers_v2: u32,
    ) -> u32;
    fn probe_fetch_row(
        words: *const u32, words_len: usize, longs: *const u64, longs_len: usize, floats: *const f32, floats_len: usize,
        contexts: *const u16, contexts_len: usize, history: *const f32, history_len: usize, base: u64, memory: *const u8,
        memory_len: usize, buffers_v2: u32, c: u32, out: *mut f32, out_len: usize,
    ) -> ProbeContext;
    fn probe_offsets_valid(record: *const u8, record_len: usize, format: u32) -> u32;
}

/// What is compared of a voice, with every NaN as one.
fn seen(v: &Rows) -> (Vec<u32>, Vec<u64>, Vec<u32>, Vec<u16>, Vec<u32>) {
    let all = |s: &[f32]| s.iter().map(|&x| bits(x)).collect();
    (v.words.clone(), v.longs.clone(), all(&v.floats), v.context.clone(), all(&v.history))
}

/// A prepare on both sides: whether the voice is ready, and the voice after it.
fn prepares(before: &Rows) -> [(bool, Rows); 2] {
    let (mut probe, mut port) = (Probe::new(before), before.clone());
    let ready = probe.prepare();
    let p = &mut port;
    let code = unsafe {
        probe_prepare(
            p.words.as_mut_ptr(), WORDS, p.longs.as_mut_ptr(), LONGS, p.floats.as_mut_ptr(), FLOATS, p.context.as_mut_ptr(), 3,
            p.history.as_mut_ptr(), 18,
        )
    };
    [(code != 0, port), (ready, probe.rows())]
}

/// The play marks, and the one whose prepare does nothing but flush.
const MARKS: u32 = 4;
const PAUSED: u32 = 3;

/// A flush on both sides: its turns, and the voice after it. The Rust's is all that its prepare of a paused voice does.
fn flushes(before: &Rows, count: u32) -> [(u32, Rows); 2] {
    let mut port = before.clone();
    (port.words[PLAY], port.words[FLUSH]) = (PAUSED, count);
    let mut probe = Probe::new(&port);
    probe.prepare();
    // A prepare has done its flush; the port's flush leaves the count to its caller.
    port.words[FLUSH] = 0;
    let p = &mut port;
    let turns = unsafe { probe_flush(p.words.as_mut_ptr(), WORDS, p.longs.as_mut_ptr(), LONGS, p.floats.as_mut_ptr(), FLOATS, count) };
    [(turns, port), (count.min(4), probe.rows())]
}

/// What was compared, and what of it differed; how many flushes took each number of turns; how many took consumed round its limit after
/// the fourth turn; and how many prepares with more than four turns to do had each play mark.
#[derive(Default)]
struct Tally {
    compared: u64,
    differ: u64,
    turns: [u64; 5],
    round: u64,
    long: [u64; MARKS as usize],
}

impl Tally {
    fn tell(&mut self, what: &str, same: bool, before: &Rows) {
        self.compared += 1;
        if !same {
            self.differ += 1;
            if self.differ < 6 {
                println!("differs: {what}: {before:?}");
            }
        }
    }

    /// Compares a flush.
    fn flush(&mut self, before: &Rows, count: u32) {
        let [port, oracle] = flushes(before, count);
        self.tell(&format!("flush {count}"), port.0 == oracle.0 && seen(&port.1) == seen(&oracle.1), before);
        self.turns[oracle.0 as usize] += 1;
        let consumed = before.words[CONSUMED];
        self.round += u64::from(consumed.checked_add(4).is_some() && consumed.checked_add(count).is_none());
    }

    /// Compares a prepare, and gives whether the voice is ready.
    fn prepare(&mut self, before: &Rows) -> bool {
        let [port, oracle] = prepares(before);
        self.tell("prepare", port.0 == oracle.0 && seen(&port.1) == seen(&oracle.1), before);
        self.long[before.words[PLAY] as usize] += u64::from(before.words[FLUSH] > 4);
        oracle.0
    }

    /// Prints what was compared and ends; with 0 only if nothing differed, and if flushes of `least` turns and more and all else were
    /// reached.
    fn end(&self, least: usize) -> ! {
        println!("flushes of 0 to 4 turns: {:?}; {} took consumed round its limit after the fourth", self.turns, self.round);
        println!("prepares with more than four turns to do, by play mark: {:?}", self.long);
        let reached = self.round > 0 && self.turns[least..].iter().chain(&self.long).all(|&n| n > 0);
        if !reached {
            println!("not all of it was reached");
        }
        println!("{} compared, {} differ", self.compared, self.differ);
        std::process::exit(i32::from(self.differ != 0 || !reached));
    }
}

/// Counts of 0 to 40 with every base slot and index, and with an index that no voice has, which a flush doesn't ask about.
fn short_counts(r: &mut Random, tally: &mut Tally) {
    for count in 0..=40 {
        for (base, index) in (0..4).flat_map(|base| [0, 1, 2, 3, 4, u32::MAX].map(|index| (base, index))) {
            let mut before = rows(r, 400, count);
            (before.words[BASE_INDEX], before.words[INDEX]) = (base, index);
            for consumed in [7, u32::MAX - 20] {
                before.words[CONSUMED] = consumed;
                tally.flush(&before, count);
                if index < 4 {
                    tally.prepare(&before);
                }
            }
        }
    }
}

/// The largest count: every base slot with consumed at 0, at 7 and at its limit, then every play mark.
fn limits(r: &mut Random, tally: &mut Tally) {
    for (base, consumed) in (0..4).flat_map(|base| [0, 7, u32::MAX].map(|consumed| (base, consumed))) {
        let mut before = rows(r, 400, u32::MAX);
        (before.words[BASE_INDEX], before.words[CONSUMED]) = (base, consumed);
        tally.flush(&before, u32::MAX);
        println!("flush of {}, base slot {base}, consumed {consumed}: {} differ so far", u32::MAX, tally.differ);
    }
    for play in 0..MARKS {
        let mut before = rows(r, 400, u32::MAX);
        before.words[PLAY] = play;
        tally.prepare(&before);
        println!("prepare with a flush of {}, play mark {play}: {} differ so far", u32::MAX, tally.differ);
    }
}

fn main() {
    let args: Vec<String> = std::env::args().skip(1).collect();
    let tally = &mut Tally::default();
    if args.first().is_some_and(|a| a == "limits") {
        limits(&mut Random(7), tally);
        tally.end(4);
    }
    let number = |k: usize, d| args.get(k).map_or(d, |a| a.parse().expect("a number"));
    let (r, count) = (&mut Random(number(0, 1)), number(1, 200_000));
    let (mut rounds, mut most, mut ready) = (0u64, 0u64, 0u64);
    short_counts(r, tally);
    for k in 0..count {
        let size = [0, 6, 40, 400, 2000][r.below(5) as usize];
        let memory = r.bytes(size);
        let flush = if k % 5000 == 0 { 1_000_000 - r.below(4) as u32 } else { r.below(7) as u32 };
        let before = rows(r, memory.len() as u64, flush);
        tally.flush(&before, flush);
        ready += u64::from(tally.prepare(&before));

        let needed = [0, 1, 5, 14, 60, 240, 4097][r.below(7) as usize];
        let v2 = r.below(2) == 0;
        let (mut probe, mut port) = (Probe::new(&before), before.clone());
        take_rounds();
        let src = probe.fetch(&Memory { base: BASE, bytes: &memory }, needed, v2);
        let spent = take_rounds();
        let (channels, width) = (before.words[5] as usize, 3 + needed);
        let mut out = vec![0.25f32; channels * width];
        let (b, size) = (&before, memory.len());
        for c in 0..channels {
            let row = out[c * width..].as_mut_ptr();
            let x = unsafe {
                probe_fetch_row(
                    b.words.as_ptr(), WORDS, b.longs.as_ptr(), LONGS, b.floats.as_ptr(), FLOATS, b.context.as_ptr(), 3,
                    b.history.as_ptr(), 18, BASE, memory.as_ptr(), size, u32::from(v2), c as u32, row, width,
                )
            };
            if c == 0 {
                port.context = vec![x.pred_scale, x.history0 as u16, x.history1 as u16];
            }
        }
        let p = &mut port;
        let port_rounds = unsafe {
            probe_plan(
                p.words.as_mut_ptr(), WORDS, p.longs.as_mut_ptr(), LONGS, p.floats.as_mut_ptr(), FLOATS, BASE, size as u64, needed as u32,
                u32::from(v2),
            )
        };
        let rows_same = (0..channels).all(|c| src[c].iter().map(|&x| bits(x)).eq(out[c * width..(c + 1) * width].iter().map(|&x| bits(x))));
        tally.tell("fetch", seen(&port) == seen(&probe.rows()) && u64::from(port_rounds) == spent && rows_same, &before);
        rounds += spent;
        most += u64::from(spent == 64);

        let mut record = r.bytes(0x38);
        if r.below(2) == 0 {
            record[8..16].copy_from_slice(&r.below(200).to_le_bytes());
            record[0x10..0x14].copy_from_slice(&(r.below(100) as u32).to_le_bytes());
            record[0x14..0x18].copy_from_slice(&(r.below(100) as u32).to_le_bytes());
        }
        let format = before.words[3];
        let valid = unsafe { probe_offsets_valid(record.as_ptr(), record.len(), format) } != 0;
        tally.tell("offsets_valid", valid == oracle::mixer::probe::offsets_valid(&record, format as u8), &before);
    }
    println!("flush, prepare, fetch and offsets_valid of {count} voices ({ready} ready, {rounds} rounds, {most} fetches of 64)");
    tally.end(0);
}
