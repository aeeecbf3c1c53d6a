//! A first title: it plays a clip of 16-bit samples and scores a press against the position that the renderer tells.
use jeqlluna::{Parameters, Range, Refusal, Renderer, revision};
const BASE: u32 = 0x10000; // where the clip stands
const BEAT: i64 = 1200;
const ONE: u32 = 1f32.to_bits();
const SENT: u32 = 1 << 16; // of a wave: it was sent before, or there is none

/// A record of so many bytes, with 32-bit numbers at their offsets (docs/FORMATS.md).
fn record(size: usize, fields: &[(usize, u32)]) -> Vec<u8> {
    let mut bytes = vec![0; size];
    fields.iter().for_each(|&(at, value)| bytes[at..at + 4].copy_from_slice(&value.to_le_bytes()));
    bytes
}

/// The title's update: a voice that is new, in use and started, and plays 16-bit samples of so many bytes.
fn update(bytes: u32) -> Vec<u8> {
    let header = record(0x40, &[(0x0c, 0x170), (0x10, 0x70), (0x18, 0x930), (0x1c, 0x140)]);
    let voice = record(0x60, &[(0x08, 0x0200_0101), (0x0c, 48000), (0x1c, ONE), (0x20, ONE), (0x3c, 1)]);
    let wave = [(0x00, BASE), (0x08, bytes), (0x14, bytes / 2), (0x50, SENT), (0x88, SENT), (0xc0, SENT)];
    let mix = record(0x930, &[(0x00, ONE), (0x08, 1), (0x0c, 1)]);
    let (gains, sink) = (record(0x70, &[(0x04, ONE)]), record(0x140, &[(0x00, 0x0101), (0x120, 1)]));
    [header, gains, voice, record(0x110, &wave), mix, sink].concat()
}

fn main() -> Result<(), Refusal> {
    let counts = Parameters { mix_buffers: 1, voices: 1, sinks: 1, revision: revision(5), ..Parameters::default() };
    let mut renderer = Renderer::open(&Parameters { sample_rate: 48000, samples: 240, ..counts })?;
    let clip: Vec<u8> = (0..4800).flat_map(|k| if k == BEAT { [0, 0x4e] } else { [0, 0] }).collect(); // a click
    renderer.update(0, &update(clip.len() as u32), 1024)?;
    for _ in 0..6 {
        renderer.render(&[Range::whole(BASE.into(), &clip)], &clip, &mut [0.0; 480])?;
    }
    let played = renderer.positions()?[0].played as i64; // the press
    let off = played - 3 - BEAT;
    print!("played {played}, heard up to sample {}, ", played - 3);
    println!("off the beat by {off}: {}", if off.abs() < 480 { "hit" } else { "miss" });
    Ok(())
}
