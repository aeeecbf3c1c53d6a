//! Plays a click track over a title: the title's voice 0 plays a tone, the coach's voice 1 a click every 480 samples. Both are sent in one
//! update, which `merge` makes of the two blocks. Prints for each render the loudest frame, and how far each voice has played.
//!
//!     cargo run --example click
use jeqlluna::{Parameters, Range, Refusal, Renderer, merge, revision};

const SAMPLES: usize = 240;
const VOICES: usize = 2;
/// The clips: samples of the title's, and of the click's behind it.
const TONE: usize = 1000;
const CLICK: usize = 480;
/// Where sample memory stands.
const BASE: u64 = 0x10000;
const ONE: u32 = 1f32.to_bits();

/// A record of so many bytes with numbers at their places.
fn record(size: usize, fields: &[(usize, u32)]) -> Vec<u8> {
    let mut bytes = vec![0; size];
    for &(at, value) in fields {
        bytes[at..at + 4].copy_from_slice(&value.to_le_bytes());
    }
    bytes
}

/// A voice that is new, in use and started, and plays so many 16-bit samples from a place on, once or over and over, on a channel.
fn voice(from: usize, samples: usize, looping: bool, channel: usize) -> Vec<u8> {
    let head = [(0x08, 0x0200_0101), (0x0c, 48000), (0x18, 1), (0x1c, ONE), (0x20, ONE), (0x3c, 1), (0x5c, u32::MAX)];
    let wave = [(0x60, BASE as u32 + 2 * from as u32), (0x68, 2 * samples as u32), (0x74, samples as u32), (0x78, looping.into())];
    // Without end; the other slots have no buffer; the channel.
    let rest = [(0x7c, u32::MAX), (0xb0, 1 << 16), (0xe8, 1 << 16), (0x120, 1 << 16), (0x140, channel as u32)];
    record(0x170, &[&head[..], &wave, &rest].concat())
}

/// A block of two voices: one of them, and the gains of its channel, to both buffers of the mix; then what stands behind the voices.
fn block(number: usize, voice: Vec<u8>, mixes: &[u8], sinks: &[u8]) -> Vec<u8> {
    let none = |size: usize| vec![0; size];
    let gains = record(0x70, &[(0x04, ONE), (0x08, ONE)]);
    let (mut resources, mut voices) = ([none(0x70), none(0x70)], [none(0x170), none(0x170)]);
    (resources[number], voices[number]) = (gains, voice);
    let sizes = [(0x0c, VOICES * 0x170), (0x10, VOICES * 0x70), (0x18, mixes.len()), (0x1c, sinks.len())];
    let header = record(0x40, &sizes.map(|(at, size)| (at, size as u32)));
    [&header, &resources.concat(), &voices.concat(), mixes, sinks].concat()
}

fn main() -> Result<(), Refusal> {
    let counts = Parameters { mix_buffers: 2, voices: VOICES as u32, sinks: 1, revision: revision(5), ..Parameters::default() };
    let parameters = Parameters { sample_rate: 48000, samples: SAMPLES as u32, ..counts };
    let tone = |k: usize| (k as f32 * 0.06).sin() * 8000.0 * (1.0 - k as f32 / TONE as f32);
    let click = |k: usize| if k < 24 { 12000 - 500 * k as i16 } else { 0 };
    let samples = (0..TONE).map(|k| tone(k) as i16).chain((0..CLICK).map(click));
    let memory: Vec<u8> = samples.flat_map(i16::to_le_bytes).collect();

    // The title's block has the final mix and the sink; the coach's has a voice and the gains of its channel.
    let mix = record(0x930, &[(0x00, ONE), (0x08, 2), (0x0c, 1), (0x924, 0x7fff_ffff), (0x928, u32::MAX)]);
    let sink = record(0x140, &[(0x00, 0x0101), (0x120, 2), (0x124, 0x0100)]);
    let title = block(0, voice(0, TONE, false, 0), &mix, &sink);
    let coach = block(1, voice(TONE, CLICK, true, 1), &[], &[]);
    let mut both = vec![0; title.len() + VOICES * 0x1e0];
    let size = merge(&parameters, &title, &coach, &mut both)?;
    println!("title {} bytes, click {} bytes, merged {size} bytes", title.len(), coach.len());

    let mut renderer = Renderer::open(&parameters)?;
    renderer.update(0, &both[..size], 4096)?;
    for k in 0..6 {
        let mut frames = [0.0f32; 2 * SAMPLES];
        renderer.render(&[Range::whole(BASE, &memory)], &memory, &mut frames)?;
        let loudest = frames.iter().fold(0f32, |most, x| most.max(x.abs()));
        let told = renderer.positions()?;
        println!("render {k}: loudest {loudest:.3}, title played {}, click played {}", told[0].played, told[1].played);
    }
    Ok(())
}
