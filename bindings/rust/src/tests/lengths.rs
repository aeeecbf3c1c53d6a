//! How long replies are, how much a renderer holds, and the order of sub-mixes.
use super::title::{EXAMPLE, MOST, ONE_VOICE, put};
use crate::{MOST_HELD, Parameters, Refusal, Renderer};
use alloc::vec;
use alloc::vec::Vec;

#[test]
fn replies_of_every_length() {
    let mut r = Renderer::open(&MOST).unwrap();
    assert_eq!(r.render(&[], &[], &mut [0.0; 512]), Ok(0));
    // The effects share what is expected beyond the rest, 64 equal parts of it.
    for (expected, size) in [(0, 6672), (6672, 6672), (6735, 6672), (6736, 6736), (6800, 6800), (6863, 6800)] {
        assert_eq!(r.reply_length(expected), Ok(size));
        assert_eq!(MOST.reply_length(expected), Ok(size));
        assert_eq!(r.update(expected, &[], size).unwrap().len(), size);
        assert_eq!(r.update(expected, &[], size - 1), Err(Refusal::Reply));
    }
    assert_eq!(r.reply_length(u32::MAX), Ok(6672 + (u32::MAX as usize - 6672) / 64 * 64));
    assert_eq!(EXAMPLE.reply_length(u32::MAX), Ok(272));
    assert_eq!(Parameters { samples: 0, ..EXAMPLE }.reply_length(0), Err(Refusal::Samples));
    assert_eq!(Parameters { voices: 65, ..EXAMPLE }.reply_length(0), Err(Refusal::Counts));
    // Parameters that are cut short and opened with: the revision is 0, which has the longest replies.
    let short = Renderer::open_bytes(&MOST.to_bytes()[..0x1f]).unwrap();
    assert_eq!(short.reply_length(0), Ok(6672));
}

#[test]
fn the_most_that_a_renderer_holds() {
    let r = Renderer::open(&MOST).unwrap();
    let words = (r.words.capacity() + r.floats.capacity() + r.history.capacity()) * 4;
    assert_eq!(MOST_HELD, words + r.longs.capacity() * 8 + r.contexts.capacity() * 2 + r.parameters.capacity());
}

/// The title of mixes that go to other mixes; revision 5 has a record for each mix.
fn mixes(destinations: &[u32]) -> Vec<u8> {
    let mut input = vec![0; 0x40];
    put(&mut input, 0x18, destinations.len() as u32 * 0x930);
    for &to in destinations {
        let mut mix = vec![0; 0x930];
        for (at, value) in [(0x0c, 1), (0x924, to), (0x928, u32::MAX)] {
            put(&mut mix, at, value);
        }
        input.extend(mix);
    }
    input
}

#[test]
fn order_of_sub_mixes() {
    let mut r = Renderer::open(&Parameters { sub_mixes: 6, ..ONE_VOICE }).unwrap();
    assert_eq!(r.mix_order(), Ok(vec![]));
    // 4 to 2 to 1 to 0 and 3 to 0; 5 to itself and 6 to no mix don't run.
    r.update(0, &mixes(&[0x7fff_ffff, 0, 1, 0, 2, 5, 77]), 4096).unwrap();
    assert_eq!(r.mix_order(), Ok(vec![4, 2, 3, 1]));
    let most = Renderer::open(&MOST).and_then(|mut r| {
        r.update(0, &mixes(&[0; 32]), 1 << 16)?;
        r.mix_order()
    });
    assert_eq!(most, Ok((1..32).rev().collect()));
}
