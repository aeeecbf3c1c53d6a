//! What a run of the driver `dsp_file` has tried, and what it has not.
use crate::plain_dsp::{FORMAT, GAIN, HEADER, PADDING, VALUES};

/// The bytes of format and gain, in a file.
pub const FORMAT_AT: usize = 0x0e;
pub const GAIN_AT: usize = 0x3c;
/// Lengths that are all tried.
pub const LENGTHS: usize = HEADER + 3;

/// Kinds of case, each of which must be reached.
pub const KINDS: [&str; 33] = [
    "files that should be read",
    "files refused by 11",
    "files refused by 12",
    "writes that should succeed",
    "writes refused by 11",
    "writes refused by 12",
    "files with data beyond the samples",
    "writes with data beyond the samples",
    "files read and written back",
    "files written and read back",
    "files with a byte of padding set and data too short",
    "files with format set and data too short",
    "files with gain set and data too short",
    "writes with 11 and data too short",
    "writes with 11 and output too short",
    "writes with 11, data and output too short",
    "writes with data and output too short",
    "writes with no output",
    "writes with less output than a header",
    "writes with a header's output, and data",
    "writes with one byte of output too little",
    "writes with just enough output",
    "writes with more output",
    "writes with data whose length and 96 go beyond 2^64",
    "files of no samples",
    "files of 2^31 samples and more, refused",
    "the most samples, a byte of data too little: read",
    "the most samples, data just enough: read",
    "the most samples, a byte more: read",
    "the most samples, a byte of data too little: write",
    "the most samples, a byte of output too little: write",
    "the most samples, just enough: write",
    "the most samples, a byte more: write",
];

pub struct Tally {
    kinds: [u64; KINDS.len()],
    /// Files of each length.
    pub lengths: [u64; LENGTHS],
    /// Values that each byte of format, gain and padding had while all others were 0.
    alone: [[bool; 256]; HEADER],
    /// Values of format and of gain in writes.
    words: [Vec<bool>; 2],
    /// Reads and writes by the rest of a sample count over frames of 14, and data too short, just enough, longer.
    frames: [[[u64; 3]; 14]; 2],
    /// Accepted headers with this value not 0, and with its highest bit set.
    values: [[u64; 2]; VALUES],
    pub compared: u64,
    pub differ: u64,
}

impl Tally {
    /// Nothing counted yet.
    pub fn new() -> Tally {
        Tally {
            kinds: [0; KINDS.len()],
            lengths: [0; LENGTHS],
            alone: [[false; 256]; HEADER],
            words: [vec![false; 65536], vec![false; 65536]],
            frames: [[[0; 3]; 14]; 2],
            values: [[0; 2]; VALUES],
            compared: 0,
            differ: 0,
        }
    }

    /// Counts a case of a kind.
    pub fn hit(&mut self, kind: &str) {
        let k = KINDS.iter().position(|&name| name == kind).unwrap_or_else(|| panic!("no such kind: {kind}"));
        self.kinds[k] += 1;
    }

    /// A file whose only byte not 0, of those that question 11 tests, is this.
    pub fn alone(&mut self, at: usize, value: u8) {
        self.alone[at][value as usize] = true;
    }

    /// A write whose only fault is format (0) or gain (1).
    pub fn word(&mut self, which: usize, value: u32) {
        self.words[which][value as usize] = true;
    }

    /// A read (0) or write (1) that only question 12 may refuse.
    pub fn frame(&mut self, call: usize, samples: u32, bytes: u64, least: u64) {
        let k = if bytes < least { 0 } else { 1 + usize::from(bytes > least) };
        self.frames[call][samples as usize % 14][k] += 1;
    }

    /// A header that was accepted.
    pub fn header(&mut self, values: &[u32; VALUES], widths: impl Iterator<Item = usize>) {
        for (count, (value, width)) in self.values.iter_mut().zip(values.iter().zip(widths)) {
            count[0] += u64::from(*value != 0);
            count[1] += u64::from(*value >> (8 * width - 1) != 0);
        }
    }

    /// Prints the counts, and what should have been reached and never was; whether there is such a thing.
    pub fn print(&self) -> bool {
        let mut never = vec![];
        for (name, count) in KINDS.iter().zip(self.kinds) {
            println!("{name}: {count}");
            if count == 0 {
                never.push(name.to_string());
            }
        }
        let least = self.lengths.iter().min().expect("lengths");
        println!("files of each length 0 to {}: at least {least}", LENGTHS - 1);
        never.extend((0..LENGTHS).filter(|&n| self.lengths[n] == 0).map(|n| format!("a file of {n} bytes")));
        let tested = [FORMAT_AT, FORMAT_AT + 1, GAIN_AT, GAIN_AT + 1].into_iter().chain(HEADER - PADDING..HEADER);
        let all: Vec<usize> = tested.clone().map(|at| self.alone[at].iter().filter(|&&b| b).count()).collect();
        println!("tested bytes set alone: {}, each to {} values or more", all.len(), all.iter().min().expect("bytes"));
        never.extend(tested.zip(all).filter(|&(_, n)| n < 255).map(|(at, n)| format!("byte {at:#x} alone: {n} values of 255")));
        for (name, values) in ["format", "gain"].into_iter().zip(&self.words) {
            let n = values.iter().filter(|&&b| b).count();
            println!("writes with {name} alone: {n} values");
            if n != 65535 {
                never.push(format!("writes with {name} alone: not all values"));
            }
        }
        for (call, frames) in ["read", "write"].into_iter().zip(&self.frames) {
            let least = frames.as_flattened().iter().min().expect("rests");
            println!("{call}: sample counts by their rest over 14, with data too short, just enough, longer: at least {least} of each");
            for (rest, counts) in frames.iter().enumerate() {
                if counts.contains(&0) {
                    never.push(format!("{call}: rest {rest}: {counts:?}"));
                }
            }
        }
        // Format and gain of what is accepted are 0.
        let values = self.values.iter().enumerate().filter(|(k, _)| ![FORMAT, GAIN].contains(k));
        let least = |half: usize| values.clone().map(|(_, c)| c[half]).min().expect("values");
        println!("accepted headers by value: at least {} have it not 0, {} with its highest bit", least(0), least(1));
        never.extend(values.clone().filter(|(_, c)| c.contains(&0)).map(|(k, _)| format!("value {k} of accepted headers not 0, or high")));
        for name in &never {
            println!("never reached: {name}");
        }
        !never.is_empty()
    }
}
