//! Two update blocks in one.
use super::title::{AT, ONE_VOICE, put, render, title};
use crate::{Parameters, Position, Refusal, Renderer, merge, merge_bytes, sys};
use alloc::vec;
use alloc::vec::Vec;

const TWO_VOICES: Parameters = Parameters { voices: 2, ..ONE_VOICE };
const HEADER: usize = 0x40;
const RESOURCE: usize = 0x70;
const VOICE: usize = 0x170;
/// What stands before the voices in a whole block of two, and its end where it has nothing else.
const VOICES: usize = HEADER + 2 * RESOURCE;
const END: usize = VOICES + 2 * VOICE;

/// A block of two voices, of which these are in use: each a record that `title` makes, and names the channel of this number by the first
/// channel that it plays. Resources and records are marked with a byte, so that one tells whose they are.
fn block(mark: u8, voices: &[(usize, i32)]) -> Vec<u8> {
    let one = title(1.0, true);
    let mut block = vec![0; END];
    put(&mut block, 0x0c, 2 * VOICE as u32);
    put(&mut block, 0x10, 2 * RESOURCE as u32);
    for j in 0..2 {
        block[HEADER + j * RESOURCE..][..RESOURCE].fill(mark + j as u8);
    }
    for &(k, channel) in voices {
        let record = &mut block[VOICES + k * VOICE..][..VOICE];
        record.copy_from_slice(&one[0xb0..0xb0 + VOICE]);
        put(record, 0x140, channel as u32);
        put(record, 0x00, mark.into());
    }
    block
}

/// The merged block of two, which takes so many bytes.
fn merged(title: &[u8], click: &[u8], size: usize) -> Vec<u8> {
    let mut output = vec![0xa5; size + 7];
    assert_eq!(merge(&TWO_VOICES, title, click, &mut output), Ok(size));
    assert_eq!(output[size..], [0xa5; 7]);
    output.truncate(size);
    output
}

/// Title and click with a voice each: the records, the resources and the header, by hand.
#[test]
fn by_hand() {
    let (mut title, click) = (block(0x10, &[(0, 0)]), block(0x20, &[(1, 1)]));
    title[..4].copy_from_slice(b"REV5");
    put(&mut title, 0x3c, 0x1234);
    title[VOICES + VOICE + 0x20] = 77; // of a record that is not in use
    title.extend([1, 2, 3]);
    let output = merged(&title, &click, END + 3);
    assert_eq!(output[..HEADER], title[..HEADER]);
    assert_eq!(output[HEADER..][..RESOURCE], [0x10; RESOURCE]);
    assert_eq!(output[HEADER + RESOURCE..][..RESOURCE], [0x21; RESOURCE]);
    assert_eq!(output[VOICES..][..VOICE], title[VOICES..][..VOICE]);
    assert_eq!(output[VOICES + VOICE..][..VOICE], click[VOICES + VOICE..][..VOICE]);
    assert_eq!(output[END..], [1, 2, 3]);
    // Without the click's voice its resource is the title's, and the record is zeros.
    let output = merged(&title, &block(0x20, &[]), END + 3);
    assert_eq!(output[HEADER + RESOURCE..][..RESOURCE], [0x11; RESOURCE]);
    assert_eq!(output[VOICES + VOICE..][..VOICE], [0; VOICE]);
}

/// A merged block is what the title has, where the click has no voice and the title has all sections: to the byte.
#[test]
fn nothing_to_add() {
    let title = title(1.0, true);
    for click in [&[][..], &[1, 2, 3], &[0; HEADER]] {
        let mut output = vec![0xa5; title.len()];
        assert_eq!(merge(&ONE_VOICE, &title, click, &mut output), Ok(title.len()));
        assert_eq!(output, title);
    }
}

/// A title that is cut short: missing bytes are 0, and the sizes that count are those that are written.
#[test]
fn short_titles() {
    let click = block(0x20, &[(0, 0), (1, 1)]);
    // Two of the four bytes of the behaviour size: 5 bytes of zeros stand behind the header.
    let output = merged(&[9, 8, 7, 6, 5, 0], &click, END + 5);
    let mut header = vec![0; HEADER + 5];
    header[..6].copy_from_slice(&[9, 8, 7, 6, 5, 0]);
    put(&mut header, 0x0c, 2 * VOICE as u32);
    put(&mut header, 0x10, 2 * RESOURCE as u32);
    assert_eq!(output[..HEADER + 5], header);
    assert_eq!(output[HEADER + 5..], click[HEADER..]);
    // No title at all.
    let output = merged(&[], &click, END);
    assert_eq!(output, click);
    assert_eq!(merged(&[], &[], END)[HEADER..], [0; END - HEADER]);
    // A resource that is cut short keeps the bytes that are there; a section that reaches past the end has none.
    let mut title = block(0x10, &[]);
    title.truncate(HEADER + 0x50);
    put(&mut title, 0x10, 0x50);
    let resources = |title: &[u8]| merged(title, &[], END)[HEADER..VOICES].to_vec();
    assert_eq!(resources(&title), [&[0x10; 0x50][..], &[0; 2 * RESOURCE - 0x50]].concat());
    put(&mut title, 0x10, 0x51);
    assert_eq!(resources(&title), [0; 2 * RESOURCE]);
    // A record that is cut short is none.
    let mut click = block(0x20, &[(0, 0), (1, 1)]);
    put(&mut click, 0x0c, 2 * VOICE as u32 - 1);
    assert_eq!(merged(&[], &click, END)[VOICES + VOICE..], [0; VOICE]);
}

/// 2, 16, 17 and 18, the first that is answered "no"; size 0, and the output as it was.
#[test]
fn refused() {
    let both = block(0x10, &[(0, 0), (1, 1)]);
    let refusals = |p: &Parameters, title: &[u8], click: &[u8], room: usize| {
        let mut output = vec![0xa5; room];
        let answer = merge(p, title, click, &mut output);
        let p = p.to_bytes();
        // SAFETY: each pointer and count are those of one slice; the output is borrowed here alone.
        let r = unsafe {
            sys::jeqlluna_merge(p.as_ptr(), p.len(), title.as_ptr(), title.len(), click.as_ptr(), click.len(), output.as_mut_ptr(), room)
        };
        if answer.is_err() {
            assert_eq!(r.size, 0);
            assert!(output.iter().all(|&b| b == 0xa5));
        }
        answer.map_err(Refusal::number)
    };
    let above = Parameters { sinks: 9, ..TWO_VOICES };
    let (first, second) = (block(0x20, &[(0, 0)]), block(0x20, &[(1, 0)]));
    for room in [0, END - 1, END] {
        assert_eq!(refusals(&above, &both, &both, room), Err(2));
        assert_eq!(refusals(&above, &first, &second, room), Err(2));
        assert_eq!(refusals(&above, &first, &[], room), Err(2));
        assert_eq!(refusals(&TWO_VOICES, &both, &first, room), Err(16));
        assert_eq!(refusals(&TWO_VOICES, &first, &second, room), Err(17));
        assert_eq!(refusals(&TWO_VOICES, &first, &[], room), if room < END { Err(18) } else { Ok(END) });
    }
    // By clamping: below 0 is channel 0, and past the last is the last.
    for (a, b, same) in [(0, -1, true), (0, i32::MIN, true), (1, 2, true), (1, i32::MAX, true), (0, 2, false), (1, -1, false)] {
        let answer = refusals(&TWO_VOICES, &block(0x10, &[(0, a)]), &block(0x20, &[(1, b)]), END);
        assert_eq!(answer, if same { Err(17) } else { Ok(END) }, "{a} and {b}");
    }
    // Sizes as large as they get need more than any output has, and don't go round.
    let mut title = block(0x10, &[]);
    put(&mut title, 0x04, u32::MAX);
    put(&mut title, 0x08, u32::MAX);
    assert_eq!(refusals(&TWO_VOICES, &title, &[], END), Err(18));
    // Samples are not asked for.
    assert_eq!(refusals(&Parameters { samples: 0, ..TWO_VOICES }, &both, &[], END), Ok(END));
    assert_eq!(refusals(&Parameters { samples: 257, ..TWO_VOICES }, &both, &[], END), Ok(END));
    // Parameters that are cut short: without a count of voices there are none.
    let mut output = [0xa5; HEADER];
    assert_eq!(merge_bytes(&TWO_VOICES.to_bytes()[..0x13], &[], &first, &mut output), Ok(HEADER));
    assert_eq!(output, [0; HEADER]);
}

/// Sample memory: 2,000 samples of 16 bits, small enough that two of them and their sum are heard as they are.
fn memory() -> Vec<u8> {
    (0..2000).flat_map(|k| ((k * 37 % 8000 - 4000) as i16).to_le_bytes()).collect()
}

/// The title of a first voice, which plays 1,000 samples of the memory, and the click of a second one, which plays 100 samples over and
/// over. Both have a mix and a sink, so that each is heard alone. New, or going on.
fn song(new: bool) -> [Vec<u8>; 2] {
    let one = title(1.0, new);
    let (records, desk) = (&one[HEADER..0xb0 + VOICE], &one[0xb0 + VOICE..]);
    [(0, 1000, 0), (1, 100, 1)].map(|(voice, samples, looping)| {
        let mut block = vec![0; END];
        block[..HEADER].copy_from_slice(&one[..HEADER]);
        put(&mut block, 0x0c, 2 * VOICE as u32);
        put(&mut block, 0x10, 2 * RESOURCE as u32);
        block[HEADER + voice * RESOURCE..][..RESOURCE].copy_from_slice(&records[..RESOURCE]);
        let record = &mut block[VOICES + voice * VOICE..][..VOICE];
        record.copy_from_slice(&records[RESOURCE..]);
        let wave = [(0x60, AT as u32 + 2000 * voice as u32), (0x68, 2 * samples), (0x74, samples), (0x78, looping)];
        for (at, value) in wave {
            put(record, at, value);
        }
        record[0x60 + 0x1a] = u8::from(!new); // sent before
        put(record, 0x140, voice as u32);
        block.extend(desk);
        block
    })
}

/// A click over a title: each voice's position is that of its own block, and what is heard is both together.
#[test]
fn a_click_over_a_title() {
    let memory = memory();
    let mut renderers = [(); 3].map(|()| Renderer::open(&TWO_VOICES).unwrap());
    for turn in 0..3 {
        let [title, click] = song(turn == 0);
        let both = merged(&title, &click, title.len());
        for (renderer, block) in renderers.iter_mut().zip([&title, &click, &both]) {
            renderer.update(0, block, 4096).unwrap();
        }
        for k in 0..3 {
            let [by_title, by_click, by_both] = &mut renderers;
            let frames = [by_title, by_click, by_both].map(|renderer| {
                let mut frames = [0.0; 480];
                let rounds = render(renderer, AT, &memory, &mut frames).unwrap();
                (frames, rounds, renderer.positions().unwrap())
            });
            let [(title, a, of_title), (click, b, of_click), (both, c, of_both)] = frames;
            assert_eq!(of_both, [of_title[0], of_click[1]], "turn {turn}, render {k}");
            assert_eq!(c, a + b, "turn {turn}, render {k}");
            for ((x, y), z) in title.iter().zip(&click).zip(&both) {
                assert_eq!(x + y, *z, "turn {turn}, render {k}");
            }
            assert!(click.iter().any(|&x| x != 0.0));
        }
    }
    // 1,000 samples in nine renders of 240; 2,160 of the click's, and no buffer of it ends.
    let [_, _, mut by_both] = renderers;
    assert_eq!(by_both.positions(), Ok(vec![Position { played: 1000, consumed: 1 }, Position { played: 2160, consumed: 0 }]));
    // The title alone again: the click is out of use.
    by_both.update(0, &merged(&song(false)[0], &[], song(false)[0].len()), 4096).unwrap();
    assert_eq!(by_both.positions().unwrap()[1], Position::default());
}
