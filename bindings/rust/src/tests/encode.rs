//! Samples encoded as ADPCM.
use crate::{AdpcmContext, Encoded, Refusal, decode_adpcm, encode_adpcm, sys};
use alloc::vec;
use alloc::vec::Vec;

const NONE: AdpcmContext = AdpcmContext { pred_scale: 0, history0: 0, history1: 0 };
const PAIRS: [i16; 16] = [0, 0, 2048, 0, 3680, -1664, 3120, -1104, 3780, -1820, 1024, 0, 1600, 280, 4000, -1990];

/// The bytes of so many samples.
fn size(samples: usize) -> usize {
    samples / 14 * 8 + if samples % 14 > 0 { 1 + (samples % 14).div_ceil(2) } else { 0 }
}

/// Bytes, error and context of an encode to an output of just enough.
fn encode(samples: &[i16], coefficients: &[i16; 16], mut context: AdpcmContext) -> (Vec<u8>, u64, AdpcmContext) {
    let mut output = vec![0xa5; size(samples.len())];
    let encoded = encode_adpcm(samples, coefficients, &mut context, &mut output).unwrap();
    assert_eq!(encoded.size, output.len());
    (output, encoded.error, context)
}

/// A sawtooth, with jumps that no predictor foresees.
fn samples(count: usize) -> Vec<i16> {
    (0..count).map(|k| (k as i16 % 11 - 5) * 2500 + k as i16 * 37).collect()
}

#[test]
fn by_hand() {
    // The nearest nibbles at scale 0; both ends of 16 bits, the second by every nibble from -8 to -4; what the pair predicts.
    assert_eq!(encode(&[1, -1], &[0; 16], NONE), (vec![0x00, 0x1f], 0, AdpcmContext { pred_scale: 0, history0: -1, history1: 1 }));
    assert_eq!(encode(&[i16::MAX, i16::MIN], &[0; 16], NONE).0, [0x0d, 0x48]);
    let mut pair = [0; 16];
    pair[0] = 2048;
    let from = AdpcmContext { pred_scale: 0xffff, history0: 100, history1: 7 };
    assert_eq!(encode(&[100], &pair, from), (vec![0x00, 0x00], 0, AdpcmContext { pred_scale: 0, history0: 100, history1: 100 }));
    // The same pair as predictor 7 has the highest header.
    let mut last = [0; 16];
    last[14] = 2048;
    assert_eq!(encode(&[101, 99, 100, 107], &last, from).0, [0x70, 0x1e, 0x17]);
    // 9 stands in the middle of what scale 1 has, 8 and 10: the lower nibble. 7 and -9 are halfway too.
    assert_eq!(encode(&[9, 7, -9], &[0; 16], NONE).0, [0x01, 0x43, 0xb0]);
    // Without samples the context is as it was.
    assert_eq!(encode(&[], &PAIRS, from), (vec![], 0, from));
}

/// What the bytes decode to is as far from the samples as the error says, and the decode leaves the same context.
#[test]
fn and_decoded() {
    for n in 0..60 {
        let (samples, from) = (samples(n), AdpcmContext { pred_scale: 0x4321, history0: -300, history1: i16::MAX });
        let (bytes, error, left) = encode(&samples, &PAIRS, from);
        let (mut context, mut decoded) = (from, vec![0.25; n]);
        assert_eq!(decode_adpcm(&bytes, 0, n, &PAIRS, &mut context, &mut decoded), Ok(n));
        assert_eq!(context, left, "{n} samples");
        let off = decoded.iter().zip(&samples).map(|(&d, &s)| (d as i64 - i64::from(s)).pow(2) as u64);
        assert_eq!(off.sum::<u64>(), error, "{n} samples");
        // What was decoded is encoded without error.
        let again: Vec<i16> = decoded.iter().map(|&d| d as i16).collect();
        assert_eq!(encode(&again, &PAIRS, from).1, 0, "{n} samples");
        // In two calls, the first of whole frames.
        for whole in (0..=n).step_by(14) {
            let (first, a, between) = encode(&samples[..whole], &PAIRS, from);
            let (second, b, after) = encode(&samples[whole..], &PAIRS, between);
            assert_eq!(([first, second].concat(), a + b, after), (bytes.clone(), error, left), "{whole} of {n} samples");
        }
    }
}

#[test]
fn bytes_beyond_stay_and_less_is_refused() {
    for n in 0..45 {
        let (samples, from) = (samples(n), AdpcmContext { pred_scale: 1, history0: 2, history1: 3 });
        let (bytes, error, left) = encode(&samples, &PAIRS, from);
        let (mut context, mut output) = (from, vec![0xa5; bytes.len() + 9]);
        assert_eq!(encode_adpcm(&samples, &PAIRS, &mut context, &mut output), Ok(Encoded { size: bytes.len(), error }));
        assert_eq!((&output[..bytes.len()], &output[bytes.len()..], context), (&bytes[..], &[0xa5; 9][..], left));
        for room in 0..bytes.len() {
            let (mut context, mut output) = (from, vec![0xa5; room]);
            assert_eq!(encode_adpcm(&samples, &PAIRS, &mut context, &mut output), Err(Refusal::Encoded), "{n} samples to {room}");
            assert!(context == from && output.iter().all(|&b| b == 0xa5), "{n} samples to {room}");
        }
    }
}

/// Of the coefficients the first sixteen count, and those that are missing are 0; a refusal's other results are 0.
#[test]
fn as_c_sees_it() {
    let (samples, longer) = (samples(20), [&PAIRS[..], &[i16::MAX; 4]].concat());
    let from = AdpcmContext { pred_scale: 9, history0: 1000, history1: 900 };
    for count in 0..=longer.len() {
        let (mut output, mut sixteen) = ([0xa5; 12], [0; 16]);
        sixteen[..count.min(16)].copy_from_slice(&PAIRS[..count.min(16)]);
        let (bytes, error, context) = encode(&samples, &sixteen, from);
        let (c, out) = (longer.as_ptr(), output.as_mut_ptr());
        // SAFETY: each pointer and count are those of one slice or array; the output is borrowed here alone.
        let (short, r) = unsafe {
            (
                sys::jeqlluna_encode_adpcm(samples.as_ptr(), 20, c, count, from, out, 11),
                sys::jeqlluna_encode_adpcm(samples.as_ptr(), 20, c, count, from, out, 12),
            )
        };
        assert_eq!(short, sys::Encoded { number: 15, size: 0, context: NONE, error: 0 });
        assert_eq!(r, sys::Encoded { number: 0, size: 12, context, error });
        assert_eq!(output[..], bytes[..], "{count} coefficients");
    }
}
