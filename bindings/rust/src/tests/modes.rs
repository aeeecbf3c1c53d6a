//! The floating-point mode around a call.
use super::title::{ONE_VOICE, held, render, title};
use crate::{Range, Renderer, mode, sys};
use alloc::vec::Vec;

/// MXCSR with exceptions masked, to nearest, nothing flushed.
const ORDER: u32 = 0x1f80;
const DOWNWARD: u32 = 0x2000;
const FLUSHED: u32 = 0x8040;
/// Raised by an operation whose result was not exact.
const INEXACT: u32 = 0x20;

/// A renderer whose voice ramps to a volume for which products are not exact.
fn renderer() -> Renderer {
    let mut r = Renderer::open(&ONE_VOICE).unwrap();
    r.update(0, &title(0.1, true), 4096).unwrap();
    r
}

/// The frames' bits of a render in a mode, and the mode that it leaves.
fn in_mode(mxcsr: u32, r: &mut Renderer, render: fn(&mut Renderer, &mut [f32; 480])) -> (Vec<u32>, u32) {
    let mut frames = [0.0; 480];
    let before = mode::read();
    // SAFETY: no reserved bit is set, and no arithmetic of Rust is done until the register is set back.
    unsafe { mode::load(mxcsr) };
    render(r, &mut frames);
    let after = mode::read();
    // SAFETY: this is the value that the thread had.
    unsafe { mode::load(before) };
    (frames.iter().map(|x| x.to_bits()).collect(), after)
}

fn by_crate(r: &mut Renderer, frames: &mut [f32; 480]) {
    let _ = render(r, 0x10000, &[0x33, 0x73], frames);
}

fn by_section(r: &mut Renderer, frames: &mut [f32; 480]) {
    let memory = [0x33, 0x73];
    let _ = r.render_section(1, &[Range::whole(0x10000, &memory)], &memory, frames);
}

/// The library's function as it is, which leaves the mode alone.
fn by_library(r: &mut Renderer, frames: &mut [f32; 480]) {
    let (range, memory) = ([0x10000, 0, 2], [0x33, 0x73]);
    // SAFETY: each pointer and count are those of one slice or array; those that are written are borrowed here alone.
    unsafe {
        sys::jeqlluna_render(
            r.words.as_mut_ptr(),
            r.words.len(),
            r.longs.as_mut_ptr(),
            r.longs.len(),
            r.floats.as_mut_ptr(),
            r.floats.len(),
            r.contexts.as_mut_ptr(),
            r.contexts.len(),
            r.history.as_mut_ptr(),
            r.history.len(),
            range.as_ptr(),
            range.len(),
            memory.as_ptr(),
            2,
            frames.as_mut_ptr(),
            480,
        );
    }
}

#[test]
fn every_mode_gives_the_same() {
    let (mut a, mut b) = (renderer(), renderer());
    let (frames, after) = in_mode(ORDER, &mut a, by_library);
    assert_eq!(after, ORDER | INEXACT);
    assert!(frames.iter().any(|&x| x != 0));
    assert_ne!(in_mode(ORDER | DOWNWARD, &mut b, by_library).0, frames);
    // Rounding, flushing, exceptions that are not masked, and flags that are raised: the frames are the same and the register comes back.
    for mxcsr in [ORDER, ORDER | DOWNWARD, ORDER | FLUSHED, 0, ORDER | 0x3f, DOWNWARD | FLUSHED | 0x3f] {
        for render in [by_crate, by_section] {
            let mut c = renderer();
            assert_eq!(in_mode(mxcsr, &mut c, render), (frames.clone(), mxcsr), "MXCSR {mxcsr:x}");
            assert_eq!(held(&c), held(&a));
        }
    }
}
