//! Empty updates, by document 02's rule: the state stays as it is, and the reply tells the positions. The Rust isn't given them, so what
//! the reply must be is made here: the Rust's reply for a copy of the state, with the voices' bytes put in from the rows.
use oracle::mixer::probe::{LONGS, Slices, WORDS};
use oracle::renderer::Probe;

/// A voice as its rows have it.
struct Row {
    in_use: bool,
    fresh: bool,
    played: u64,
    consumed: u32,
}

impl Row {
    /// Whether it has a position that isn't 0, told or not.
    fn moved(&self) -> bool {
        (self.played, self.consumed) != (0, 0)
    }
}

fn rows(s: &Slices) -> impl Iterator<Item = Row> {
    (0..s.words[4] as usize).map(|k| {
        let (words, longs) = (&s.words[10 + k * WORDS..], &s.longs[1 + k * LONGS..]);
        Row { in_use: words[0] == 1, fresh: words[1] == 1, played: longs[1], consumed: words[23] }
    })
}

/// The reply to an empty update. In it the voices' 16 bytes each come after the header and 16 bytes for each pool.
pub fn reply(s: &Slices, expected: u32) -> Vec<u8> {
    // What the copy runs is not compared as the Rust's, so that it covers none of its branches.
    #[cfg(cover)]
    oracle::cover::pause(true);
    let mut reply = Probe::restore(s).update(&[], expected as usize);
    #[cfg(cover)]
    oracle::cover::pause(false);
    let pools = (s.words[6] + s.words[4] * 4) as usize;
    for (row, told) in rows(s).zip(reply[0x40 + pools * 0x10..].chunks_mut(0x10)) {
        told.fill(0);
        if row.in_use && !row.fresh {
            told[..8].copy_from_slice(&row.played.to_le_bytes());
            told[8..12].copy_from_slice(&row.consumed.to_le_bytes());
        }
    }
    reply
}

/// What the updates that succeed have reached of the rule.
#[derive(Default)]
pub struct Reached {
    pub empty: u64,
    /// Empty updates that tell a position that isn't 0.
    pub told: u64,
    /// Those with a fresh voice in use, and with one whose rows hold a position that isn't 0.
    pub fresh: u64,
    pub fresh_moved: u64,
    /// Those with a voice that is not in use and whose rows hold a position that isn't 0.
    pub unused_moved: u64,
    /// Updates of 1 to 63 bytes, less than a header, with a voice in use.
    pub short: u64,
}

impl Reached {
    /// Counts an update from this state.
    pub fn count(&mut self, before: &Slices, input: &[u8]) {
        let any = |test: fn(&Row) -> bool| u64::from(rows(before).any(|row| test(&row)));
        match input.len() {
            0 => {
                self.empty += 1;
                self.told += any(|row| row.in_use && !row.fresh && row.moved());
                self.fresh += any(|row| row.in_use && row.fresh);
                self.fresh_moved += any(|row| row.in_use && row.fresh && row.moved());
                self.unused_moved += any(|row| !row.in_use && row.moved());
            }
            1..64 => self.short += any(|row| row.in_use),
            _ => {}
        }
    }

    #[allow(dead_code)]
    pub fn add(&mut self, other: &Reached) {
        self.empty += other.empty;
        self.told += other.told;
        self.fresh += other.fresh;
        self.fresh_moved += other.fresh_moved;
        self.unused_moved += other.unused_moved;
        self.short += other.short;
    }
}

impl std::fmt::Display for Reached {
    fn fmt(&self, f: &mut std::fmt::Formatter) -> std::fmt::Result {
        write!(f, "{} empty updates: {} tell a position that isn't 0, {} have a fresh voice in use ", self.empty, self.told, self.fresh)?;
        write!(f, "({} one with a position), {} an unused voice with a position", self.fresh_moved, self.unused_moved)
    }
}
