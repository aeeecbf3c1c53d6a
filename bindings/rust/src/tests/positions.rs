//! Positions: what is told, and that asking changes nothing.
use super::title::{MOST, ONE_VOICE, held, put, render, title};
use crate::positions::{CONSUMED, HEADER, LONGEST, PLAYED, POOLS_SIZE, VOICE, VOICES_SIZE};
use crate::{Parameters, Position, Refusal, Renderer, revision};
use alloc::vec;
use alloc::vec::Vec;
extern crate std;

const BASE: u32 = 0x10000;
const NONE: Position = Position { played: 0, consumed: 0 };

/// Sample memory: 2,000 samples of 16 bits.
fn memory() -> Vec<u8> {
    (0..2000i16).flat_map(|k| (k * 7 - 3000).to_le_bytes()).collect()
}

/// The title of one voice that plays buffers of so many samples each, one behind the other in memory, new or going on.
fn clips(new: bool, samples: &[u32]) -> Vec<u8> {
    let mut update = title(1.0, new);
    let waves = 0xb0 + 0x60;
    let mut first = 0;
    for slot in 0..4 {
        let at = waves + slot * 0x38;
        let count = samples.get(slot).copied().unwrap_or(0);
        update[at..at + 0x38].fill(0);
        for (field, value) in [(0x00, BASE + 2 * first), (0x08, 2 * count), (0x14, count)] {
            put(&mut update, at + field, value);
        }
        update[at + 0x1a] = u8::from(!new || slot >= samples.len()); // sent before
        first += count;
    }
    update
}

/// The bits of a render's frames.
fn frames(r: &mut Renderer) -> Vec<u32> {
    let mut frames = [0.25; 512];
    render(r, BASE.into(), &memory(), &mut frames).unwrap();
    frames.iter().map(|x| x.to_bits()).collect()
}

/// The position of voice 0 that a whole update tells, by hand: its 16 bytes stand behind the header and four pools.
fn by_update(r: &Renderer, input: &[u8]) -> Position {
    let reply = r.clone().update(0, input, 4096).unwrap();
    assert_eq!(reply[0x8c..0x90], [0; 4]);
    Position {
        played: u64::from_le_bytes(reply[0x80..0x88].try_into().unwrap()),
        consumed: u32::from_le_bytes(reply[0x88..0x8c].try_into().unwrap()),
    }
}

/// Buffers of 100, 200 and 300 samples, 240 of them in each render.
#[test]
fn a_voice_that_plays() {
    let mut r = Renderer::open(&ONE_VOICE).unwrap();
    r.update(0, &clips(true, &[100, 200, 300]), 4096).unwrap();
    assert_eq!(r.positions(), Ok(vec![NONE]), "fresh");
    for (played, consumed) in [(240, 1), (480, 2), (600, 3), (600, 3)] {
        frames(&mut r);
        let told = Position { played, consumed };
        assert_eq!(r.positions(), Ok(vec![told]));
        assert_eq!(by_update(&r, &clips(false, &[100, 200, 300])), told);
    }
}

/// Two renderers make the same calls, and one is asked before, between and after them.
#[test]
fn asking_changes_nothing() {
    let mut asked = Renderer::open(&ONE_VOICE).unwrap();
    let mut left = asked.clone();
    let mut told = vec![];
    for turn in 0..6 {
        if turn % 2 == 0 {
            let input = clips(turn == 0, &[100, 700]);
            assert_eq!(asked.update(0, &input, 4096), left.update(0, &input, 4096));
        }
        for _ in 0..2 {
            told.push(asked.positions().unwrap()[0].played);
            assert_eq!(held(&asked), held(&left));
        }
        let heard = frames(&mut asked);
        assert_eq!(heard, frames(&mut left));
        assert_eq!(heard.iter().any(|x| x << 1 != 0 && *x != 0.25f32.to_bits()), turn < 4, "turn {turn}");
        assert_eq!(held(&asked), held(&left));
    }
    assert_eq!(told, [0, 0, 240, 240, 480, 480, 720, 720, 800, 800, 800, 800]);
}

/// A voice whose record says that it is not in use, or is missing: 0 and 0. It keeps its place, which a record in use tells again.
#[test]
fn out_of_use() {
    let mut not_used = clips(false, &[1000]);
    not_used[0xb0 + 0x09] = 0;
    for out in [&not_used[..], &[0], &[0xff; 63], &[0; 64]] {
        let mut r = Renderer::open(&ONE_VOICE).unwrap();
        r.update(0, &clips(true, &[1000]), 4096).unwrap();
        frames(&mut r);
        let told = Position { played: 240, consumed: 0 };
        assert_eq!(r.positions(), Ok(vec![told]));
        r.update(0, out, 4096).unwrap();
        assert_eq!(r.positions(), Ok(vec![NONE]), "{} bytes", out.len());
        assert!(frames(&mut r)[..480].iter().all(|x| *x == 0));
        assert_eq!(r.positions(), Ok(vec![NONE]));
        r.update(0, &clips(false, &[1000]), 4096).unwrap();
        assert_eq!(r.positions(), Ok(vec![told]));
    }
}

/// 64 voices: voice k has a pitch of k sixteenths; every fifth is not in use, every seventh has nothing queued and stays fresh.
#[test]
fn sixty_four_voices() {
    let one = title(1.0, true);
    let voice = |k: usize| {
        let mut voice = one[0xb0..0xb0 + 0x170].to_vec();
        voice[0x09] = u8::from(k % 5 != 0);
        let pitch = (k as f32 / 16.0).to_bits();
        for (at, value) in [(0x1c, pitch), (0x3c, u32::from(k % 7 != 0)), (0x68, 4000), (0x74, 2000), (0x78, 0)] {
            put(&mut voice, at, value);
        }
        voice
    };
    let mut update = vec![0; 0x40];
    put(&mut update, 0x0c, 64 * 0x170);
    update.extend((0..64).flat_map(voice));
    for number in [0, 4, 5, 8] {
        let mut r = Renderer::open(&Parameters { revision: revision(number), ..MOST }).unwrap();
        r.update(0, &update, LONGEST).unwrap();
        assert_eq!(r.positions(), Ok(vec![NONE; 64]));
        frames(&mut r);
        // 256 samples at a step of k sixteenths.
        let played = |k: u64| if k % 5 == 0 || k % 7 == 0 { 0 } else { 16 * k };
        let told: Vec<Position> = (0..64).map(|k| Position { played: played(k), consumed: 0 }).collect();
        assert_eq!(r.positions(), Ok(told), "revision {number}");
    }
}

/// A position of 64 bits, and one of 32, are read whole.
#[test]
fn large_numbers() {
    let mut r = Renderer::open(&ONE_VOICE).unwrap();
    r.update(0, &clips(true, &[1000]), 4096).unwrap();
    frames(&mut r);
    let at = r.longs.iter().position(|&x| x == 240).unwrap();
    r.longs[at] = 0x8877_6655_4433_2211;
    assert_eq!(r.positions().unwrap()[0].played, 0x8877_6655_4433_2211);
    let found = (0..r.words.len()).filter(|&k| {
        let mut other = r.clone();
        other.words[k] = 0x8877_6655;
        other.positions().is_ok_and(|p| p.first().is_some_and(|p| p.consumed == 0x8877_6655))
    });
    assert_eq!(found.count(), 1);
}

/// A state that is not whole, which no call leaves, is refused by 4 and stays as it is.
#[test]
fn a_state_that_is_not_whole() {
    let mut r = Renderer::open(&ONE_VOICE).unwrap();
    r.words[1] = 0; // samples per render
    let before = held(&r);
    assert_eq!(r.positions(), Err(Refusal::State));
    assert_eq!(held(&r), before);
}

/// No voice, and the longest reply.
#[test]
fn counts_at_their_ends() {
    let none = Parameters { voices: 0, ..ONE_VOICE };
    assert_eq!(Renderer::open(&none).unwrap().positions(), Ok(vec![]));
    assert_eq!(MOST.reply_length(0), Ok(LONGEST));
    assert_eq!(Renderer::open(&MOST).unwrap().positions(), Ok(vec![NONE; 64]));
}

/// The places in a reply, held to include/jeqlluna_title.h; what is compared of the header is its text.
#[test]
fn places_of_the_header() {
    let path = concat!(env!("CARGO_MANIFEST_DIR"), "/../../include/jeqlluna_title.h");
    let text = std::fs::read_to_string(path).expect(path);
    for (name, value) in [
        ("HEADER_SIZE", HEADER),
        ("HEADER_POOLS_SIZE", POOLS_SIZE),
        ("HEADER_VOICES_SIZE", VOICES_SIZE),
        ("VOICE_SIZE", VOICE),
        ("VOICE_PLAYED", PLAYED),
        ("VOICE_CONSUMED", CONSUMED),
    ] {
        assert_eq!(text.matches(&std::format!("#define JEQLLUNA_REPLY_{name} 0x{value:02x} ")).count(), 1, "{name}");
    }
}
