//! Titles as bytes, for the tests.
use crate::{Parameters, Range, Refusal, Renderer, revision};
use alloc::vec;
use alloc::vec::Vec;

/// Two samples, revision 5, everything else 0.
pub const EXAMPLE: Parameters = Parameters {
    sample_rate: 0,
    samples: 2,
    mix_buffers: 0,
    sub_mixes: 0,
    voices: 0,
    sinks: 0,
    effects: 0,
    splitters: 0,
    destinations: 0,
    revision: revision(5),
};

/// One voice, a final mix of two buffers and a sink.
pub const ONE_VOICE: Parameters = Parameters { sample_rate: 48000, samples: 240, mix_buffers: 2, voices: 1, sinks: 1, ..EXAMPLE };

/// As much as is allowed.
pub const MOST: Parameters = Parameters {
    sample_rate: 48000,
    samples: 256,
    mix_buffers: 96,
    sub_mixes: 31,
    voices: 64,
    sinks: 8,
    effects: 64,
    splitters: 32,
    destinations: 128,
    revision: revision(5),
};

/// Where sample memory stands.
const BASE: u32 = 0x10000;
pub const AT: u64 = BASE as u64;
/// Where the samples stand in memory, behind the coefficients and the context of ADPCM, and how many bytes they are.
pub const SAMPLES: usize = 40;
const BYTES: usize = 1600;

/// All that a renderer holds, floats by their bits.
pub type Held = (Vec<u32>, Vec<u64>, Vec<u32>, Vec<u16>, Vec<u32>);

pub fn held(r: &Renderer) -> Held {
    let bits = |v: &[f32]| v.iter().map(|x| x.to_bits()).collect();
    (r.words.clone(), r.longs.clone(), bits(&r.floats), r.contexts.clone(), bits(&r.history))
}

/// A render with all of a slice as sample memory, from an address on.
pub fn render(r: &mut Renderer, base: u64, memory: &[u8], frames: &mut [f32]) -> Result<u32, Refusal> {
    r.render(&[Range::whole(base, memory)], memory, frames)
}

pub fn put(d: &mut [u8], at: usize, value: u32) {
    d[at..at + 4].copy_from_slice(&value.to_le_bytes());
}

/// For `ONE_VOICE`: a voice that plays a single 16-bit sample at 0x10000 over and over, to both buffers of the final mix, and a sink on
/// these.
pub fn title(volume: f32, fresh: bool) -> Vec<u8> {
    let one = 1f32.to_bits();
    let mut resource = vec![0; 0x70];
    put(&mut resource, 0x04, one);
    put(&mut resource, 0x08, one);
    let mut voice = vec![0; 0x170];
    voice[0x08..0x0c].copy_from_slice(&[u8::from(fresh), 1, 0, 2]); // new, in use, started, 16-bit PCM
    for (at, value) in [(0x0c, 48000), (0x18, 1), (0x1c, one), (0x20, volume.to_bits()), (0x3c, 1), (0x58, 0), (0x5c, u32::MAX)] {
        put(&mut voice, at, value);
    }
    for (at, value) in [(0x60, 0x10000), (0x68, 2), (0x74, 1), (0x78, 1), (0x7c, u32::MAX)] {
        put(&mut voice, at, value); // address, size, end, looping, without end
    }
    for b in 1..4 {
        voice[0x60 + b * 0x38 + 0x1a] = 1; // sent before
    }
    let mut mix = vec![0; 0x930];
    for (at, value) in [(0x00, one), (0x08, 2), (0x0c, 1), (0x924, 0x7fff_ffff), (0x928, u32::MAX)] {
        put(&mut mix, at, value);
    }
    let mut sink = vec![0; 0x140];
    sink[..2].copy_from_slice(&[1, 1]); // device, used
    sink[0x120] = 2;
    sink[0x125] = 1;
    let mut input = vec![0; 0x40];
    for (at, size) in [(0x0c, voice.len()), (0x10, resource.len()), (0x18, mix.len()), (0x1c, sink.len())] {
        put(&mut input, at, size as u32);
    }
    [input, resource, voice, mix, sink].concat()
}

/// Coefficients, a context and samples that are heard in every format.
pub fn memory() -> Vec<u8> {
    let mut memory: Vec<u8> = (0..SAMPLES + BYTES).map(|k| (k * k / 7 + k) as u8).collect();
    for at in (SAMPLES..memory.len()).step_by(4) {
        memory[at + 3] = 0x3c + (memory[at] & 2);
    }
    for (k, coefficient) in [1024i16, 512, 2048, 0, 0, 1024, 512, -256].into_iter().cycle().take(16).enumerate() {
        memory[2 * k..2 * k + 2].copy_from_slice(&coefficient.to_le_bytes());
    }
    memory
}

/// A renderer whose voice plays the samples in a format, once.
pub fn playing(format: u8) -> Renderer {
    let (voice, wave) = (0xb0, 0xb0 + 0x60);
    let count = match format {
        2 => BYTES / 2,
        5 => BYTES / 4,
        _ => BYTES / 8 * 14,
    };
    let mut update = title(1.0, true);
    update[voice + 0x0b] = format;
    put(&mut update, voice + 0x48, BASE);
    let place = [(0x00, BASE + SAMPLES as u32), (0x08, BYTES as u32), (0x14, count as u32), (0x18, 0), (0x20, BASE + 32)];
    for (at, value) in place {
        put(&mut update, wave + at, value);
    }
    let mut r = Renderer::open(&ONE_VOICE).unwrap();
    r.update(0, &update, 4096).unwrap();
    r
}
