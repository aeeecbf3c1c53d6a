//! Sample memory in ranges: reads that cross, gaps, and the refusals.
use super::title::{AT, Held, SAMPLES, held, memory, playing, render};
use crate::{Position, Range, Refusal, Renderer, sys};
use alloc::vec;
use alloc::vec::Vec;

/// The range of three numbers.
const fn range(base: u64, start: u64, length: u64) -> Range {
    Range { base, start, length }
}

/// The rounds and the frames' bits of two renders, and what the renderer then holds.
fn heard(r: &mut Renderer, ranges: &[Range], memory: &[u8]) -> (Vec<u32>, Held) {
    let mut out = vec![];
    for _ in 0..2 {
        let mut frames = [0.25; 480];
        out.push(r.render(ranges, memory, &mut frames).unwrap());
        out.extend(frames.iter().map(|x| x.to_bits()));
    }
    (out, held(r))
}

/// Cut at any byte, the second part first in the slice or after bytes of no range, the sound is that of one range.
#[test]
fn two_that_touch() {
    let memory = memory();
    for format in [2, 5, 6] {
        let one = heard(&mut playing(format), &[Range::whole(AT, &memory)], &memory);
        assert!(one.0.iter().filter(|&&x| x != 0).count() > 400, "format {format} is heard");
        for cut in (0..=memory.len()).filter(|k| k % 9 == 0 || *k < SAMPLES + 8) {
            let (first, second) = memory.split_at(cut);
            let (a, b) = (first.len() as u64, second.len() as u64);
            let swapped = [second, first].concat();
            let ranges = [range(AT, b, a), range(AT + a, 0, b)];
            assert_eq!(heard(&mut playing(format), &ranges, &swapped), one, "format {format}, cut at {cut}, swapped");
            let apart = [&[0xa5][..], first, &[0xa5; 3], second].concat();
            let ranges = [range(7, 0, 1), range(AT, 1, a), range(AT + a, 0, 0), range(AT + a, 4 + a, b), range(1 << 62, 0, 9)];
            assert_eq!(heard(&mut playing(format), &ranges, &apart), one, "format {format}, cut at {cut}, apart");
        }
    }
}

/// Sixteen ranges on one part of the slice sound as the part sixteen times over.
#[test]
fn a_part_that_is_shared() {
    let memory = memory();
    let part = &memory[SAMPLES..SAMPLES + 50];
    let ranges: [Range; 16] = core::array::from_fn(|k| range(AT + SAMPLES as u64 + 50 * k as u64, SAMPLES as u64, 50));
    let long = part.repeat(16);
    let whole = heard(&mut playing(2), &[Range::whole(AT + SAMPLES as u64, &long)], &long);
    assert_eq!(heard(&mut playing(2), &ranges, &memory), whole);
    assert!(whole.0.iter().any(|&x| x != 0));
}

/// A missing byte between two ranges ends the buffer at the render whose read would take it.
#[test]
fn a_gap() {
    let memory = memory();
    let (length, gap) = (memory.len() as u64, SAMPLES as u64 + 500);
    let ranges = [range(AT, 0, gap), range(AT + gap + 1, gap + 1, length - gap - 1)];
    let (mut whole, mut gapped) = (playing(2), playing(2));
    let (mut a, mut b) = ([0.25; 480], [0.25; 480]);
    assert_eq!(render(&mut whole, AT, &memory, &mut a), Ok(1));
    assert_eq!(gapped.render(&ranges, &memory, &mut b), Ok(1));
    assert_eq!(a, b);
    assert_eq!(render(&mut whole, AT, &memory, &mut a), Ok(1));
    assert_eq!(gapped.render(&ranges, &memory, &mut b), Ok(1));
    assert!(a[400..].iter().any(|&x| x != 0.0) && b[400..].iter().all(|&x| x == 0.0));
    assert_eq!(whole.positions(), Ok(vec![Position { played: 480, consumed: 0 }]));
    assert_eq!(gapped.positions(), Ok(vec![Position { played: 240, consumed: 1 }]));
}

/// What 13 refuses, each with the smallest change that makes it allowed.
#[test]
fn refused_by_13() {
    const MOST: u64 = u64::MAX;
    let last = range(AT + 17, 1, 3);
    let mut seventeen = [Range::default(); 17];
    for (k, r) in seventeen.iter_mut().enumerate() {
        *r = range(AT + k as u64, k as u64, 1);
    }
    let cases: [(&[Range], &[Range]); 9] = [
        (&seventeen, &seventeen[..16]),
        (&[range(AT, 0, 33)], &[range(AT, 0, 32)]),
        (&[range(AT, 1, 32)], &[range(AT, 1, 31)]),
        (&[range(AT, 33, 0)], &[range(AT, 32, 0)]),
        (&[range(AT, MOST, 1), last], &[range(AT, 31, 1), last]),
        (&[range(AT, 2, MOST - 1)], &[range(AT, 2, 30)]),
        (&[range(AT, 0, 18), last], &[range(AT, 0, 17), last]),
        (&[last, range(AT, 0, 17)], &[range(AT, 0, 17), last]),
        (&[range(MOST - 1, 0, 2), range(0, 0, 1)], &[range(0, 0, 1), range((1 << 63) - 2, 0, 2)]),
    ];
    let memory = &memory()[..32];
    let mut r = playing(2);
    let before = held(&r);
    for (k, (refused, allowed)) in cases.into_iter().enumerate() {
        let mut frames = [0.5; 480];
        assert_eq!(r.render(refused, memory, &mut frames), Err(Refusal::Ranges), "case {k}");
        assert!(frames == [0.5; 480] && held(&r) == before, "case {k}");
        assert!(r.clone().render(allowed, memory, &mut frames).is_ok(), "case {k}");
    }
}

/// 13, then 5 of any range, then 7.
#[test]
fn in_sequence() {
    let memory = &memory()[..32];
    let (near, far) = (range((1 << 63) - 32, 0, 32), range((1 << 63) - 31, 0, 32));
    let mut r = playing(2);
    let before = held(&r);
    let mut frames = [0.5; 479];
    for refused in [&[far, near][..], &[far, range(u64::MAX, 33, 0)], &[range(AT, 0, 33), far]] {
        assert_eq!(r.render(refused, memory, &mut frames), Err(Refusal::Ranges));
    }
    for refused in [&[far][..], &[range(AT, 0, 1), far], &[range(AT, 3, 0), range(u64::MAX, 0, 1)]] {
        assert_eq!(r.render(refused, memory, &mut frames), Err(Refusal::Memory));
    }
    assert_eq!(r.render(&[range(AT, 0, 1), near], memory, &mut frames), Err(Refusal::Frames));
    assert!(frames == [0.5; 479] && held(&r) == before);
}

/// No range is memory without bytes, whatever stands in the slice; null is as good as any pointer, and numbers left over are no range.
#[test]
fn numbers_of_ranges() {
    let memory = memory();
    let given = |numbers: *const u64, count: usize| {
        let (mut r, mut frames) = (playing(2), [0.25f32; 480]);
        // SAFETY: each pointer and count are those of one slice or array; those that are written are borrowed here alone.
        let answer = unsafe {
            sys::jeqlluna_render(
                r.words.as_mut_ptr(),
                r.words.len(),
                r.longs.as_mut_ptr(),
                r.longs.len(),
                r.floats.as_mut_ptr(),
                r.floats.len(),
                r.contexts.as_mut_ptr(),
                r.contexts.len(),
                r.history.as_mut_ptr(),
                r.history.len(),
                numbers,
                count,
                memory.as_ptr(),
                memory.len(),
                frames.as_mut_ptr(),
                480,
            )
        };
        (answer, frames.map(f32::to_bits), held(&r))
    };
    let numbers = [AT, 0, memory.len() as u64, 0, u64::MAX];
    let (none, one) = (given(core::ptr::null(), 0), given(numbers.as_ptr(), 3));
    assert_eq!((none.0.number, one.0.number), (0, 0));
    assert!(none.1 == [0; 480] && one.1 != [0; 480]);
    for count in 0..3 {
        assert_eq!(given(numbers.as_ptr(), count), none, "{count} numbers");
        assert_eq!(given(numbers.as_ptr(), 3 + count), one, "{} numbers", 3 + count);
    }
    let (mut r, mut frames) = (playing(2), [0.25; 480]);
    assert_eq!(r.render(&[], &memory, &mut frames), Ok(none.0.rounds));
    assert_eq!((frames.map(f32::to_bits), held(&r)), (none.1, none.2));
}
