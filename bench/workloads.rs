//! The renders of typical titles that title.rs and sections.rs time.
use crate::desks;
use crate::generate::BASE;
use crate::voices::{self, SAMPLES, Sound};
use oracle::mixer::probe::Slices;
use oracle::renderer::Probe;

const VOICES: usize = 24;

/// Renders of both sides from the same state: how many are timed at once, their samples, and whether they are heard.
pub struct Workload {
    pub name: String,
    pub times: usize,
    pub samples: usize,
    pub sounds: bool,
    pub slices: Slices,
    pub probe: Probe,
}

/// What plays: PCM16, every fourth voice in stereo, or else every second voice in ADPCM; the voices' sample rates in turn.
pub struct Desk {
    name: &'static str,
    sounds: bool,
    rates: [u32; 3],
    adpcm: bool,
}

/// Both formats at three rates.
pub const MIXED: Desk =
    Desk { name: "PCM16 and ADPCM at 48000, 44100 and 32000 Hz", sounds: true, rates: [48000, 44100, 32000], adpcm: true };
const DESKS: [Desk; 3] = [
    MIXED,
    Desk { name: "PCM16 at 48000 Hz", sounds: true, rates: [48000; 3], adpcm: false },
    Desk { name: "silent", sounds: false, rates: [48000; 3], adpcm: true },
];

impl Desk {
    /// The state of a title with 24 voices that loop.
    pub fn state(&self, memory: usize) -> Slices {
        let sound = |v: usize| {
            let adpcm = self.adpcm && v % 2 == 1;
            Sound {
                format: if adpcm { 6 } else { 2 },
                channels: if !adpcm && v % 4 == 0 { 2 } else { 1 },
                rate: self.rates[v % 3],
                address: BASE + 64,
                size: memory as u64 - 64,
                samples: 9000 + v as u32 * 100,
                context: 0,
            }
        };
        voices::state(&(0..VOICES).map(sound).collect::<Vec<Sound>>(), self.sounds)
    }
}

/// All of them, with so many bytes of sample memory.
pub fn all(memory: usize) -> impl Iterator<Item = Workload> {
    let by_rows = DESKS.iter().map(move |desk| {
        let slices = desk.state(memory);
        let (name, probe) = (format!("24 voices, 240 samples, {}", desk.name), Probe::restore(&slices));
        Workload { name, times: 10, samples: SAMPLES, sounds: desk.sounds, slices, probe }
    });
    let by_calls = desks::DESKS.iter().map(move |desk| {
        let (slices, probe) = desk.open(memory);
        Workload { name: desk.name.into(), times: desk.times, samples: desk.samples, sounds: desk.sounds(), slices, probe }
    });
    by_rows.chain(by_calls)
}
