//! Each refusal, and that it changes nothing.
use super::title::{EXAMPLE, MOST, ONE_VOICE, held, render};
use crate::{Parameters, Refusal, Renderer, sys};
use alloc::vec;

#[test]
fn opening_is_refused() {
    for samples in [0, 257, u32::MAX] {
        assert_eq!(Renderer::open(&Parameters { samples, voices: 65, ..EXAMPLE }).err(), Some(Refusal::Samples));
    }
    let fields: [fn(&mut Parameters) -> &mut u32; 7] = [
        |p| &mut p.mix_buffers,
        |p| &mut p.sub_mixes,
        |p| &mut p.voices,
        |p| &mut p.sinks,
        |p| &mut p.effects,
        |p| &mut p.splitters,
        |p| &mut p.destinations,
    ];
    assert!(Renderer::open(&MOST).is_ok());
    for field in fields {
        let mut p = MOST;
        *field(&mut p) += 1;
        assert_eq!(Renderer::open(&p).err(), Some(Refusal::Counts));
    }
    // Parameters that are cut short: a field that is not whole is 0.
    let one = [0, 0, 0, 0, 1, 0, 0, 0];
    assert_eq!(Renderer::open_bytes(&[]).err(), Some(Refusal::Samples));
    assert_eq!(Renderer::open_bytes(&one[..7]).err(), Some(Refusal::Samples));
    assert!(Renderer::open_bytes(&one).is_ok());
}

#[test]
fn state_is_refused() {
    // One element too many in each slice by turns is refused by 3, and nothing changes; no renderer at all is refused by 4.
    let p = Parameters { voices: 1, ..EXAMPLE }.to_bytes();
    // What 13, 5 and 7 would refuse of a render, and 14 of a section.
    let far = [u64::MAX; 51];
    // SAFETY: the pointer and the count are those of one array.
    let n = unsafe { sys::jeqlluna_lengths(p.as_ptr(), p.len()) };
    for k in 0..6 {
        let more = |j| usize::from(j == k);
        let (mut words, mut longs) = (vec![7u32; n.words + more(0)], vec![7u64; n.longs + more(1)]);
        let (mut floats, mut contexts) = (vec![7f32; n.floats + more(2)], vec![7u16; n.contexts + more(3)]);
        let mut history = vec![7f32; n.history + more(4)];
        let (w, l, f, c, h) = (words.as_mut_ptr(), longs.as_mut_ptr(), floats.as_mut_ptr(), contexts.as_mut_ptr(), history.as_mut_ptr());
        let (wn, ln, fs, cn, hn) = (words.len(), longs.len(), floats.len(), contexts.len(), history.len());
        let (mut reply, mut frames) = ([7u8; 400], [7f32; 4]);
        let (reply_at, frames_at, input) = (reply.as_mut_ptr(), frames.as_mut_ptr(), p.as_ptr());
        // SAFETY: each pointer and count are those of one slice or array, and none overlaps another.
        let (order, update, render, section, open) = unsafe {
            (
                sys::jeqlluna_mix_order(w, wn, l, ln, f, fs, c, cn, h, hn),
                sys::jeqlluna_update(w, wn, l, ln, f, fs, c, cn, h, hn, 400, input, 0, reply_at, 400),
                sys::jeqlluna_render(w, wn, l, ln, f, fs, c, cn, h, hn, far.as_ptr(), 51, input, 0, frames_at, 3),
                sys::jeqlluna_render_section(w, wn, l, ln, f, fs, c, cn, h, hn, [0, 1025][k % 2], far.as_ptr(), 51, input, 0, frames_at, 3),
                sys::jeqlluna_open(input, p.len(), w, wn, l, ln, f, fs, c, cn, h, hn),
            )
        };
        assert!(reply == [7; 400] && frames == [7.0; 4]);
        assert_eq!(order, sys::Order { number: 4, count: 0, mixes: [0; 31] });
        assert_eq!(update, sys::Update { number: 4, size: 0 });
        assert_eq!([render, section], [sys::Render { number: 4, rounds: 0 }; 2]);
        assert_eq!(open, if k < 5 { 3 } else { 0 });
        if k < 5 {
            assert!(words.iter().all(|&x| x == 7) && longs.iter().all(|&x| x == 7) && contexts.iter().all(|&x| x == 7));
            assert!(floats.iter().chain(&history).all(|&x| x == 7.0));
        }
    }
}

#[test]
fn calls_are_refused_and_change_nothing() {
    let mut r = Renderer::open(&EXAMPLE).unwrap();
    r.render(&[], &[], &mut [0.0; 4]).unwrap();
    let before = held(&r);
    let mut frames = [0.5; 3];
    let far = (1 << 63) - 8;
    assert_eq!(render(&mut r, far, &[0; 9], &mut frames), Err(Refusal::Memory));
    assert_eq!(render(&mut r, u64::MAX, &[0; 9], &mut frames), Err(Refusal::Memory));
    assert_eq!(render(&mut r, far, &[0; 8], &mut frames), Err(Refusal::Frames));
    assert_eq!(frames, [0.5; 3]);
    let mut reply = [0xa5; 271];
    assert_eq!(r.update_into(272, &[1; 100], &mut reply), Err(Refusal::Reply));
    assert_eq!(reply, [0xa5; 271]);
    assert_eq!(held(&r), before);
    assert_eq!(render(&mut r, far, &[0; 8], &mut [0.0; 4]), Ok(0));
    assert_ne!(held(&r), before);
}

/// A title's numbers do not choose how much memory an update takes.
#[test]
fn a_reply_above_the_limit() {
    let mut r = Renderer::open(&Parameters { effects: 1, ..ONE_VOICE }).unwrap();
    let before = held(&r);
    for expected in [5000, 1 << 20, u32::MAX] {
        assert_eq!(r.update(expected, &[1; 100], 4096), Err(Refusal::Reply));
    }
    assert_eq!(r.update(4097, &[], 4096), Err(Refusal::Reply));
    assert_eq!(r.update(0, &[], 0), Err(Refusal::Reply));
    assert_eq!(held(&r), before);
    assert_eq!(r.update(4096, &[], 4096).unwrap().len(), 4096);
}
