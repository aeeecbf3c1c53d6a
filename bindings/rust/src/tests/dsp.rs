//! DSP files.
use super::title::{ONE_VOICE, put, render, title};
use crate::{AdpcmContext, DspHeader, Parameters, Refusal, Renderer, decode_adpcm, read_dsp, sys, write_dsp};
use alloc::vec;
use alloc::vec::Vec;

/// A header with another value in each field, negative ones among them, and the file's bytes, by hand.
const HEADER: DspHeader = DspHeader {
    samples: 17,
    nibbles: 0x0102_0304,
    rate: 0x8000_7d00,
    loop_flag: 0xfffe,
    format: 0,
    loop_start: 0x1112_1314,
    loop_end: 0xffff_fff0,
    address: 0x2122_2324,
    coefficients: [1, -2, 3, -4, i16::MIN, i16::MAX, 0x0708, -1, 9, 10, 0x0b0c, -13, 14, -15, 0x1011, -300],
    gain: 0,
    start_context: AdpcmContext { pred_scale: 0x0042, history0: -5, history1: 0x0607 },
    loop_context: AdpcmContext { pred_scale: 0xfedc, history0: i16::MIN, history1: -2 },
};
#[rustfmt::skip]
const BYTES: [u8; 96] = [
    0, 0, 0, 17, 1, 2, 3, 4, 0x80, 0, 0x7d, 0, 0xff, 0xfe, 0, 0,
    0x11, 0x12, 0x13, 0x14, 0xff, 0xff, 0xff, 0xf0, 0x21, 0x22, 0x23, 0x24, 0, 1, 0xff, 0xfe,
    0, 3, 0xff, 0xfc, 0x80, 0, 0x7f, 0xff, 7, 8, 0xff, 0xff, 0, 9, 0, 10,
    0x0b, 0x0c, 0xff, 0xf3, 0, 14, 0xff, 0xf1, 0x10, 0x11, 0xfe, 0xd4, 0, 0, 0, 0x42,
    0xff, 0xfb, 6, 7, 0xfe, 0xdc, 0x80, 0, 0xff, 0xfe, 0, 0, 0, 0, 0, 0,
    0, 0, 0, 0, 0, 0, 0, 0, 0, 0, 0, 0, 0, 0, 0, 0,
];
/// The least that 17 samples take: a frame of 14, and of another the header and a byte and a half.
const DATA: [u8; 11] = [0x10, 2, 3, 4, 5, 6, 7, 8, 0x20, 10, 11];

/// The file of `HEADER` and this data.
fn file(data: &[u8]) -> Vec<u8> {
    [&BYTES[..], data].concat()
}

#[test]
fn read_and_written() {
    for kept in [&[][..], &[0], &[9, 8, 7]] {
        let data = [&DATA[..], kept].concat();
        let bytes = file(&data);
        assert_eq!(read_dsp(&bytes), Ok((HEADER, &data[..])));
        let mut output = vec![0xa5; bytes.len() + 3];
        assert_eq!(write_dsp(&HEADER, &data, &mut output), Ok(bytes.len()));
        assert_eq!(output, [&bytes[..], &[0xa5; 3]].concat());
        // SAFETY: the pointer and the count are those of one slice.
        let r = unsafe { sys::jeqlluna_read_dsp(bytes.as_ptr(), bytes.len()) };
        assert_eq!(r, sys::DspRead { number: 0, header: HEADER, data: 96, data_len: data.len() });
    }
    assert_eq!(read_dsp(&[0; 96]), Ok((DspHeader::default(), &[][..])));
    assert_eq!(write_dsp(&DspHeader::default(), &[], &mut [1; 96]), Ok(96));
}

/// What is read goes into a decode as it is.
#[test]
fn read_and_decoded() {
    let bytes = file(&DATA);
    let (header, data) = read_dsp(&bytes).unwrap();
    let (mut context, mut output) = (header.start_context, [0.0; 20]);
    assert_eq!(decode_adpcm(data, 0, header.samples as usize, &header.coefficients, &mut context, &mut output), Ok(17));
    // The first nibble, by predictor 1 and scale 0: 0, and coefficients 3 and -4 times the history -5 and 0x607, over 2048.
    assert_eq!(output[0], ((3 * -5 - 4 * 0x607 + 1024) >> 11) as f32);
}

/// The six bytes of a context in sample memory.
fn context(x: &AdpcmContext) -> [u8; 6] {
    let words = [x.pred_scale, x.history0 as u16, x.history1 as u16].map(u16::to_le_bytes);
    words.concat().try_into().expect("six bytes")
}

/// A clip that loops from its middle on, played as docs/TITLES.md says: one buffer up to the loop's end, and one that is the loop.
#[test]
fn a_looped_file_plays() {
    let (header, data) = read_dsp(include_bytes!("../../../../examples/looped.dsp")).unwrap();
    let sample = |nibble: u32| nibble / 16 * 14 + nibble % 16 - 2;
    let (start, end) = (sample(header.loop_start), sample(header.loop_end) + 1);
    assert_eq!((header.samples, start, end), (80, 45, 80));
    // The loop's context is what a decode of the samples before it leaves.
    let mut before = header.start_context;
    assert_eq!(decode_adpcm(data, 0, 45, &header.coefficients, &mut before, &mut [0.0; 45]), Ok(45));
    assert_eq!(before, header.loop_context);
    let coefficients: Vec<u8> = header.coefficients.iter().flat_map(|c| c.to_le_bytes()).collect();
    let memory = [&coefficients[..], &context(&header.start_context), &context(&header.loop_context), data].concat();
    let base = 0x10000;
    let mut update = title(1.0, true);
    let (voice, wave) = (0xb0, 0xb0 + 0x60);
    update[voice + 0x0b] = 6;
    for (at, value) in [(0x0c, header.rate), (0x3c, 2), (0x48, base)] {
        put(&mut update, voice + at, value);
    }
    for (slot, from, looping, begins) in [(0, 0, 0, base + 32), (1, start, 1, base + 38)] {
        let at = wave + slot * 0x38;
        let place = [(0x00, base + 44), (0x08, data.len() as u32), (0x10, from), (0x14, end)];
        for (field, value) in place.into_iter().chain([(0x18, looping), (0x1c, u32::MAX), (0x20, begins)]) {
            put(&mut update, at + field, value);
        }
    }
    let mut renderer = Renderer::open(&Parameters { sample_rate: header.rate, ..ONE_VOICE }).unwrap();
    renderer.update(0, &update, 4096).unwrap();
    let mut samples = [0.0; 80];
    assert_eq!(decode_adpcm(data, 0, 80, &header.coefficients, &mut { header.start_context }, &mut samples), Ok(80));
    // At this ratio the output stands two samples behind.
    let mut played = vec![0.0, 0.0];
    played.extend((0..478).map(|k| samples[if k < 80 { k } else { 45 + (k - 80) % 35 }] / 32768.0));
    for expected in played.chunks(240) {
        let mut frames = [0.0; 480];
        render(&mut renderer, base.into(), &memory, &mut frames).unwrap();
        assert!(frames.chunks(2).zip(expected).all(|(frame, &x)| frame == [x, x]), "{frames:?} and {expected:?}");
    }
}

#[test]
fn reading_is_refused() {
    let none = sys::DspRead { number: 0, header: DspHeader::default(), data: 0, data_len: 0 };
    let refused = |bytes: &[u8], refusal: Refusal| {
        assert_eq!(read_dsp(bytes), Err(refusal));
        // SAFETY: the pointer and the count are those of one slice.
        let r = unsafe { sys::jeqlluna_read_dsp(bytes.as_ptr(), bytes.len()) };
        assert_eq!(r, sys::DspRead { number: refusal.number(), ..none });
    };
    for n in 0..96 {
        refused(&BYTES[..n], Refusal::DspHeader);
    }
    for n in 0..DATA.len() {
        refused(&file(&DATA[..n]), Refusal::DspLength);
        for at in [0x0e, 0x0f, 0x3c, 0x3d].into_iter().chain(0x4a..0x60) {
            let mut both = file(&DATA[..n]);
            both[at] = 1;
            refused(&both, Refusal::DspHeader);
        }
    }
}

#[test]
fn writing_is_refused_and_changes_nothing() {
    let refused = |header: &DspHeader, data: &[u8], room: usize, refusal: Refusal| {
        let mut output = vec![0xa5; room];
        assert_eq!(write_dsp(header, data, &mut output), Err(refusal));
        assert_eq!(output, vec![0xa5; room]);
    };
    for room in 0..96 + DATA.len() {
        refused(&HEADER, &DATA, room, Refusal::DspLength);
        refused(&DspHeader { format: 1, ..HEADER }, &DATA, room, Refusal::DspHeader);
    }
    for header in [DspHeader { format: 0x100, ..HEADER }, DspHeader { gain: 1, ..HEADER }, DspHeader { gain: 0x8000, ..HEADER }] {
        refused(&header, &DATA, 200, Refusal::DspHeader);
        refused(&header, &DATA[..10], 200, Refusal::DspHeader);
    }
    refused(&HEADER, &DATA[..10], 200, Refusal::DspLength);
    refused(&DspHeader { samples: u32::MAX, ..HEADER }, &DATA, 200, Refusal::DspLength);
}
