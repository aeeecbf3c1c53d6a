//! Whole sessions through the crate.
use super::title::{EXAMPLE, ONE_VOICE, held, put, render, title};
use crate::{Parameters, Renderer};

#[test]
fn worked_example() {
    let mut r = Renderer::open(&EXAMPLE).unwrap();
    let mut frames = [0.5; 5];
    assert_eq!(r.render(&[], &[], &mut frames), Ok(0));
    assert_eq!(frames.map(f32::to_bits), [0, 0, 0, 0, 0.5f32.to_bits()]);
    let reply = r.update(272, &[], 272).unwrap();
    let mut words = [0u32; 68];
    for (at, value) in [(0x00, 0x35564552), (0x04, 0xb0), (0x20, 0x10), (0x28, 0x10), (0x3c, 0x110), (0x100, 1)] {
        words[at / 4] = value;
    }
    assert_eq!(reply, words.map(u32::to_le_bytes).concat());
}

/// An endless loop of one sample: 64 rounds for 240 samples, and then silence. At this ratio the output stands two samples behind.
#[test]
fn a_voice_plays() {
    let mut r = Renderer::open(&ONE_VOICE).unwrap();
    r.update(0, &title(1.0, true), 4096).unwrap();
    let mut frames = [0.25; 480];
    assert_eq!(render(&mut r, 0x10000, &[0x00, 0x40], &mut frames), Ok(64));
    for (k, frame) in frames.chunks(2).enumerate() {
        assert_eq!(frame, if (2..66).contains(&k) { [0.5; 2] } else { [0.0; 2] }, "frame {k}");
    }
    // The next reply tells that the voice, no longer new, has played 64 samples.
    let reply = r.update(0, &title(1.0, false), 4096).unwrap();
    assert_eq!(reply[0x80..0x88], 64u64.to_le_bytes());
}

/// Three samples a render, pitch 0.5 over the sample 100, then pitch 0. The second render needs no new sample: its points are 0, 0, 100 and
/// then 200, and each of its outputs lies halfway between the second and the third.
#[test]
fn a_voice_is_slowed() {
    const PITCH: usize = 0x40 + 0x70 + 0x1c;
    let mut r = Renderer::open(&Parameters { samples: 3, ..ONE_VOICE }).unwrap();
    for (fresh, pitch, rounds, outputs) in [(true, 0.5f32, 1, [0.0, -6.25, 0.0]), (false, 0.0, 0, [43.75; 3])] {
        let mut input = title(1.0, fresh);
        put(&mut input, PITCH, pitch.to_bits());
        r.update(0, &input, 4096).unwrap();
        let mut frames = [0.25; 6];
        assert_eq!(render(&mut r, 0x10000, &[100, 0], &mut frames), Ok(rounds), "pitch {pitch}");
        assert_eq!(frames.map(|x| x * 32768.0), outputs.map(|x| [x; 2]).as_flattened(), "pitch {pitch}");
        assert_eq!(r.positions().unwrap()[0].played, 1, "pitch {pitch}");
    }
}

#[test]
fn a_clone_goes_on_by_itself() {
    let mut a = Renderer::open(&ONE_VOICE).unwrap();
    a.update(0, &title(1.0, true), 4096).unwrap();
    let mut b = a.clone();
    assert_eq!(render(&mut a, 0x10000, &[0x00, 0x40], &mut [0.0; 480]), Ok(64));
    assert_ne!(held(&a), held(&b));
    assert_eq!(render(&mut b, 0x10000, &[0x00, 0x40], &mut [0.0; 480]), Ok(64));
    assert_eq!(held(&a), held(&b));
}
