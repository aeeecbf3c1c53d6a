//! Plays a clip: one voice, a decaying tone of 16-bit PCM, through the final mix to the sink. Prints for each render the loudest frame,
//! and how far the voice has played.
//!
//!     cargo run --example play
use jeqlluna::{Parameters, Position, Range, Refusal, Renderer, revision};

const SAMPLES: usize = 240;
const CLIP: usize = 1000;
/// Where sample memory stands.
const BASE: u64 = 0x10000;

/// A record of so many bytes with numbers at their places.
fn record(size: usize, fields: &[(usize, u32)]) -> Vec<u8> {
    let mut bytes = vec![0; size];
    for &(at, value) in fields {
        bytes[at..at + 4].copy_from_slice(&value.to_le_bytes());
    }
    bytes
}

/// The title's update, which starts the clip.
fn update() -> Vec<u8> {
    let one = 1f32.to_bits();
    // The channel's gain to both buffers of the mix.
    let resource = record(0x70, &[(0x04, one), (0x08, one)]);
    // New, in use, started, 16-bit PCM, 48000 Hz, one channel, pitch and volume 1, one buffer, to mix 0 and no splitter.
    let flags = u32::from_le_bytes([1, 1, 0, 2]);
    let head = record(0x60, &[(0x08, flags), (0x0c, 48000), (0x18, 1), (0x1c, one), (0x20, one), (0x3c, 1), (0x5c, u32::MAX)]);
    // The clip: address, size and end. The byte at 0x1a says that a slot's buffer was sent before, or that there is none.
    let clip = record(0x38, &[(0x00, BASE as u32), (0x08, CLIP as u32 * 2), (0x14, CLIP as u32)]);
    let sent = record(0x38, &[(0x18, 1 << 16)]);
    let tail = record(0x30, &[]);
    // The final mix with two buffers and volume 1, and the device sink on these.
    let mix = record(0x930, &[(0x00, one), (0x08, 2), (0x0c, 1), (0x924, 0x7fff_ffff), (0x928, u32::MAX)]);
    let sink = record(0x140, &[(0x00, 0x0101), (0x120, 2), (0x124, 0x0100)]);
    let header = record(0x40, &[(0x0c, 0x170), (0x10, 0x70), (0x18, 0x930), (0x1c, 0x140)]);
    [header, resource, head, clip, sent.clone(), sent.clone(), sent, tail, mix, sink].concat()
}

fn main() -> Result<(), Refusal> {
    let parameters = Parameters {
        sample_rate: 48000,
        samples: SAMPLES as u32,
        mix_buffers: 2,
        voices: 1,
        sinks: 1,
        revision: revision(5),
        ..Parameters::default()
    };
    let tone = |k: usize| (k as f32 * 0.06).sin() * 20000.0 * (1.0 - k as f32 / CLIP as f32);
    let memory: Vec<u8> = (0..CLIP).flat_map(|k| (tone(k) as i16).to_le_bytes()).collect();

    let mut renderer = Renderer::open(&parameters)?;
    renderer.update(0, &update(), 4096)?;
    for k in 0..6 {
        let mut frames = [0.0f32; 2 * SAMPLES];
        renderer.render(&[Range::whole(BASE, &memory)], &memory, &mut frames)?;
        let loudest = frames.iter().fold(0f32, |most, x| most.max(x.abs()));
        let Position { played, consumed } = renderer.positions()?[0];
        println!("render {k}: loudest {loudest:.3}, played {played}, consumed {consumed}");
    }
    Ok(())
}
