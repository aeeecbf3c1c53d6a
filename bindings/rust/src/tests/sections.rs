//! Many renders in one call.
use super::title::{AT, Held, ONE_VOICE, held, memory, playing, title};
use crate::{Parameters, Position, Range, Refusal, Renderer};
use alloc::vec;
use alloc::vec::Vec;

/// Floats of a render.
const EACH: usize = 480;
const MOST: u32 = 1024;

/// The bits of floats.
fn bits(frames: &[f32]) -> Vec<u32> {
    frames.iter().map(|x| x.to_bits()).collect()
}

/// The rounds in sum and the frames' bits of so many single renders, and what the renderer then holds.
fn singles(r: &mut Renderer, count: usize, ranges: &[Range], memory: &[u8]) -> (u32, Vec<u32>, Held) {
    let mut frames = vec![0.25; count * EACH];
    let rounds = frames.chunks_mut(EACH).map(|each| r.render(ranges, memory, each).unwrap()).sum();
    (rounds, bits(&frames), held(r))
}

/// The same of one section.
fn section(r: &mut Renderer, count: usize, ranges: &[Range], memory: &[u8]) -> (u32, Vec<u32>, Held) {
    let mut frames = vec![0.25; count * EACH];
    let rounds = r.render_section(count as u32, ranges, memory, &mut frames).unwrap();
    (rounds, bits(&frames), held(r))
}

/// In every format, memory at once and in ranges, in one piece and in two: the clip sounds on from render to render, and ends.
#[test]
fn so_many_renders() {
    let memory = memory();
    let half = memory.len() as u64 / 2;
    let whole = [Range::whole(AT, &memory)];
    let parts = [Range { base: AT, start: 0, length: half }, Range { base: AT + half, start: half, length: half }];
    for format in [2, 5, 6] {
        for count in [0, 1, 2, 3, 5, 13] {
            let one = singles(&mut playing(format), count, &whole, &memory);
            for ranges in [&whole[..], &parts] {
                assert_eq!(section(&mut playing(format), count, ranges, &memory), one, "format {format}, {count} renders");
            }
            let (mut r, first) = (playing(format), count / 2);
            let (a, b) = (section(&mut r, first, &whole, &memory), section(&mut r, count - first, &whole, &memory));
            assert_eq!((a.0 + b.0, [a.1, b.1].concat(), b.2), one, "format {format}, {first} of {count} renders and the others");
        }
        let (_, frames, _) = singles(&mut playing(format), 13, &whole, &memory);
        assert_ne!(frames[..EACH], frames[EACH..2 * EACH], "format {format} sounds on");
        assert!(frames[12 * EACH..].iter().all(|&x| x == 0), "format {format} ends");
    }
}

/// An update after a section is told what so many renders have played.
#[test]
fn positions_after_a_section() {
    let (memory, mut r) = (memory(), playing(2));
    let whole = [Range::whole(AT, &memory)];
    for (count, played, consumed) in [(3, 720, 0), (0, 720, 0), (2, 800, 1)] {
        section(&mut r, count, &whole, &memory);
        assert_eq!(r.positions(), Ok(vec![Position { played, consumed }]), "after {count} renders");
    }
}

/// Floats behind the section stay, and as many as it takes are enough; none where the count is 0.
#[test]
fn floats_beyond() {
    let memory = memory();
    let whole = [Range::whole(AT, &memory)];
    let (mut r, mut frames) = (playing(2), [0.25; 3 * EACH + 1]);
    assert_eq!(r.render_section(2, &whole, &memory, &mut frames), Ok(2));
    assert!(frames[2 * EACH..].iter().all(|&x| x == 0.25));
    assert_eq!(bits(&frames[..2 * EACH]), singles(&mut playing(2), 2, &whole, &memory).1);
    let before = held(&r);
    frames.fill(0.25);
    assert_eq!(r.render_section(0, &whole, &memory, &mut frames), Ok(0));
    assert_eq!(r.render_section(0, &whole, &memory, &mut []), Ok(0));
    assert!(frames.iter().all(|&x| x == 0.25) && held(&r) == before);
}

/// As many renders as are allowed, each of 64 rounds; one more is refused, and so is any larger count, though there is room.
#[test]
fn the_largest_count() {
    let opened = || {
        let mut r = Renderer::open(&Parameters { samples: 64, ..ONE_VOICE }).unwrap();
        r.update(0, &title(1.0, true), 4096).unwrap();
        r
    };
    let (mut r, mut one) = (opened(), opened());
    let (memory, mut frames, mut each) = ([0x00, 0x40], vec![0.25; 128 * (MOST as usize + 1)], [0.0; 128]);
    let ranges = [Range::whole(AT, &memory)];
    let before = held(&r);
    for count in [MOST + 1, MOST + 2, 1 << 16, 1 << 31, u32::MAX] {
        assert_eq!(r.render_section(count, &ranges, &memory, &mut frames), Err(Refusal::Count), "{count} renders");
        assert!(frames.iter().all(|&x| x == 0.25) && held(&r) == before, "{count} renders");
    }
    assert_eq!(r.render_section(MOST, &ranges, &memory, &mut frames), Ok(64 * MOST));
    for k in 0..MOST as usize {
        one.render(&ranges, &memory, &mut each).unwrap();
        assert_eq!(frames[128 * k..][..128], each, "render {k}");
    }
    assert!(frames[128 * MOST as usize..].iter().all(|&x| x == 0.25));
    assert_eq!(held(&r), held(&one));
}

/// 13, then 5, then 14, then 7: of each two that would refuse a section, the first does. A section of 0 is asked them too.
#[test]
fn in_sequence() {
    let memory = memory();
    let (near, far) = (Range::whole(AT, &memory), Range::whole((1 << 63) - 1, &memory));
    let outside = |r: Range| Range { start: 1, ..r };
    let (mut r, mut frames) = (playing(2), [0.5; 2 * EACH - 1]);
    let before = held(&r);
    let mut refused = |range: Range, count: u32, room: usize| {
        let answer = r.render_section(count, &[range], &memory, &mut frames[..room]);
        assert!(frames.iter().all(|&x| x == 0.5) && held(&r) == before, "{answer:?}");
        answer.unwrap_err()
    };
    let enough = 2 * EACH - 1;
    for (count, room) in [(0, 0), (1, EACH), (1, EACH - 1), (2, enough), (MOST, enough), (MOST + 1, 0), (u32::MAX, enough)] {
        assert_eq!(refused(outside(near), count, room), Refusal::Ranges, "{count} renders");
        assert_eq!(refused(outside(far), count, room), Refusal::Ranges, "{count} renders");
        assert_eq!(refused(far, count, room), Refusal::Memory, "{count} renders");
    }
    for (count, room) in [(MOST + 1, 0), (MOST + 1, enough), (u32::MAX, 0), (u32::MAX, enough)] {
        assert_eq!(refused(near, count, room), Refusal::Count, "{count} renders");
    }
    for (count, room) in [(1, 0), (1, EACH - 1), (2, enough), (2, EACH), (MOST, enough)] {
        assert_eq!(refused(near, count, room), Refusal::Frames, "{count} renders");
    }
}
