//! Desks that are made by the calls alone: the port's and kirikae's renderer are opened and updated from the same bytes.
use crate::generate::BASE;
use crate::inputs::{Sections, put, put_u32};
use crate::port;
use oracle::mixer::probe::Slices;
use oracle::renderer::Probe;
use std::ops::Range;

const REVISION: &[u8; 4] = b"REV8";

/// An update of these sections.
fn input(s: Sections) -> Vec<u8> {
    let mut header = vec![0; 0x40];
    put(&mut header, 0, REVISION);
    s.join(header)
}

/// What the voices do, as their records say it.
#[derive(Clone, Copy)]
pub enum Play {
    Started = 0,
    Paused = 2,
}

/// A desk: its counts, and what its voices do.
pub struct Desk {
    pub name: &'static str,
    pub samples: usize,
    voices: usize,
    sub_mixes: usize,
    sinks: usize,
    play: Play,
    /// How many renders are timed at once.
    pub times: usize,
}

impl Desk {
    /// 24 voices that loop PCM16, every fourth in stereo, four stereo sub-mixes, a final mix and a stereo sink.
    const fn title(name: &'static str, play: Play) -> Desk {
        Desk { name, samples: 240, voices: 24, sub_mixes: 4, sinks: 1, play, times: 10 }
    }

    pub fn sounds(&self) -> bool {
        self.voices > 0 && matches!(self.play, Play::Started)
    }

    /// The stereo mixes: the final one and the sub-mixes, or none where nothing is mixed.
    fn mixes(&self) -> usize {
        if self.voices > 0 { self.sub_mixes + 1 } else { 0 }
    }

    fn parameters(&self) -> Vec<u8> {
        let mut d = vec![0; 0x34];
        let counts = [self.samples, 2 * self.mixes(), self.sub_mixes, self.voices, self.sinks];
        put_u32(&mut d, 0, 48000);
        for (at, n) in [0x04, 0x08, 0x0c, 0x10, 0x14].into_iter().zip(counts) {
            put_u32(&mut d, at, n as u32);
        }
        put(&mut d, 0x30, REVISION);
        d
    }

    /// A voice, new or going on, whose first wave buffer loops for good.
    fn voice(&self, v: usize, memory: usize, new: bool) -> Vec<u8> {
        let mut d = vec![0; 0x170];
        (d[8], d[9], d[0x0a], d[0x0b]) = (u8::from(new), 1, self.play as u8, 2);
        put_u32(&mut d, 0x0c, 48000);
        put_u32(&mut d, 0x18, if v % 4 == 0 { 2 } else { 1 });
        put(&mut d, 0x1c, &1.0f32.to_le_bytes());
        put(&mut d, 0x20, &0.75f32.to_le_bytes());
        put_u32(&mut d, 0x3c, 1);
        put_u32(&mut d, 0x58, (v % self.mixes()) as u32);
        put_u32(&mut d, 0x5c, u32::MAX);
        put(&mut d, 0x60, &(BASE + 64).to_le_bytes());
        put(&mut d, 0x68, &(memory as u64 - 64).to_le_bytes());
        put_u32(&mut d, 0x74, 9000 + v as u32 * 100);
        d[0x78] = 1;
        put_u32(&mut d, 0x7c, u32::MAX);
        for b in usize::from(new)..4 {
            d[0x60 + b * 0x38 + 0x1a] = 1;
        }
        put_u32(&mut d, 0x140, v as u32);
        put_u32(&mut d, 0x144, ((v + 1) % self.voices) as u32);
        d
    }

    fn mix(&self, m: usize) -> Vec<u8> {
        let mut d = vec![0; 0x930];
        put(&mut d, 0, &if m == 0 { 1.0f32 } else { 0.9 }.to_le_bytes());
        put_u32(&mut d, 8, 2);
        d[0x0c] = 1;
        put_u32(&mut d, 0x10, m as u32);
        put(&mut d, 0x24, &1.0f32.to_le_bytes());
        put(&mut d, 0x24 + 25 * 4, &1.0f32.to_le_bytes());
        put_u32(&mut d, 0x924, if m == 0 { 0x7fff_ffff } else { 0 });
        put_u32(&mut d, 0x928, u32::MAX);
        d
    }

    /// The records of all voices, and no others.
    fn voices_alone(&self, memory: usize, new: bool) -> Sections {
        Sections { voices: (0..self.voices).flat_map(|v| self.voice(v, memory, new)).collect(), ..Sections::default() }
    }

    /// The records of the whole desk.
    fn whole(&self, memory: usize, new: bool) -> Sections {
        let mut s = self.voices_alone(memory, new);
        for _ in 0..self.voices {
            let mut d = vec![0; 0x70];
            for side in 0..2 {
                put(&mut d, 4 + side * 4, &0.5f32.to_le_bytes());
            }
            s.resources.extend(d);
        }
        s.mixes = vec![0; 0x20];
        put_u32(&mut s.mixes, 4, self.mixes() as u32);
        s.mixes.extend((0..self.mixes()).flat_map(|m| self.mix(m)));
        for _ in 0..self.sinks {
            let mut d = vec![0; 0x140];
            (d[0], d[1], d[0x125]) = (1, 1, 1);
            put_u32(&mut d, 0x120, 2);
            s.sinks.extend(d);
        }
        s
    }

    /// Updates while the voices go on, in words and bytes.
    pub fn later(&self, memory: usize) -> [(&'static str, Vec<u8>); 2] {
        [("the voices", self.voices_alone(memory, false)), ("the whole desk", self.whole(memory, false))].map(|(what, s)| (what, input(s)))
    }

    /// An update with which the voices begin anew.
    pub fn anew(&self, memory: usize) -> Vec<u8> {
        input(self.voices_alone(memory, true))
    }

    /// An update with queue count 0 for each voice, and a flush of so many, which are added up until the voices go on.
    pub fn unqueued(&self, memory: usize, flush: u8) -> Vec<u8> {
        let mut s = self.voices_alone(memory, false);
        for record in s.voices.chunks_mut(0x170) {
            put_u32(record, 0x3c, 0);
            record[0x159] = flush;
        }
        input(s)
    }

    /// Where a reply has the voices' positions: behind the header and four pools for each voice, as there are no effects.
    pub fn told(&self) -> Range<usize> {
        let at = 0x40 + self.voices * 4 * 0x10;
        at..at + self.voices * 0x10
    }

    /// Both renderers, opened and updated.
    pub fn open(&self, memory: usize) -> (Slices, Probe) {
        let (parameters, input) = (self.parameters(), input(self.whole(memory, true)));
        let n = port::lengths(&parameters);
        assert_eq!(n.number, 0, "{}", self.name);
        let mut s = Slices {
            words: vec![0; n.words],
            longs: vec![0; n.longs],
            floats: vec![0.0; n.floats],
            contexts: vec![0; n.contexts],
            history: vec![0.0; n.history],
        };
        assert_eq!(port::open(&parameters, &mut s), 0, "{}", self.name);
        let probe = Probe::open(&parameters);
        let mut reply = vec![0; probe.reply_length(0)];
        assert_eq!(port::update(&mut s, 0, &input, &mut reply).number, 0, "{}", self.name);
        assert_eq!(reply, probe.update(&input, 0), "{}: replies differ", self.name);
        assert_eq!(port::seen(&s), port::seen(&probe.slices()), "{}: states differ", self.name);
        (s, probe)
    }
}

/// A desk at which all voices pause, the least that there can be, and one at which all play.
pub const DESKS: [Desk; 3] = [
    Desk::title("24 voices, 240 samples, all paused", Play::Paused),
    Desk { name: "1 sample, no voices, mixes or sinks", samples: 1, voices: 0, sub_mixes: 0, sinks: 0, play: Play::Paused, times: 1000 },
    Desk::title("24 voices, 240 samples, PCM16 at 48000 Hz, by updates", Play::Started),
];

/// Desks of which the positions are asked.
pub const ASKED: [Desk; 2] = [Desk::title("24 voices", Play::Started), Desk { voices: 64, ..Desk::title("64 voices", Play::Started) }];

/// A desk whose voices are flushed.
pub const FLUSHED: Desk = Desk { voices: 64, ..Desk::title("64 voices, 240 samples", Play::Started) };
