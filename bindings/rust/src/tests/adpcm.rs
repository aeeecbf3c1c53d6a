//! ADPCM alone.
use crate::{AdpcmContext, Refusal, decode_adpcm, sys};
use alloc::vec;

#[test]
fn adpcm() {
    let none = AdpcmContext::default();
    let decode = |data: &[u8], count, coefficients: &[i16; 16], mut context: AdpcmContext| {
        let mut out = [0.25; 8];
        let done = decode_adpcm(data, 0, count, coefficients, &mut context, &mut out).unwrap();
        assert!(out[done..].iter().all(|&x| x == 0.25));
        (out[..done].to_vec(), context)
    };
    let zero = [0; 16];
    assert_eq!(decode(&[0x00, 0x1f], 2, &zero, none), (vec![1.0, -1.0], AdpcmContext { pred_scale: 0, history0: -1, history1: 1 }));
    assert_eq!(decode(&[0x0d, 0x78], 2, &zero, none).0, [32767.0, -32768.0]);
    assert_eq!(decode(&[0x0c], 5, &zero, none), (vec![], AdpcmContext { pred_scale: 0x0c, ..none }));
    let mut pair = zero;
    pair[0] = 2048;
    assert_eq!(decode(&[0x00, 0x00], 1, &pair, AdpcmContext { history0: 100, ..none }).0, [100.0]);
    // The context crosses whole.
    let odd = AdpcmContext { pred_scale: 0xfedc, history0: i16::MIN, history1: -2 };
    assert_eq!(decode(&[], 1, &zero, odd), (vec![], odd));
}

#[test]
fn adpcm_is_refused() {
    let mut context = AdpcmContext { pred_scale: 1, history0: 2, history1: 3 };
    let mut out = [0.25; 2];
    let far = 1 << 60;
    assert_eq!(decode_adpcm(&[0; 8], far + 1, 3, &[0; 16], &mut context, &mut out), Err(Refusal::Start));
    assert_eq!(decode_adpcm(&[0; 8], far, 3, &[0; 16], &mut context, &mut out), Err(Refusal::Output));
    assert_eq!((context, out), (AdpcmContext { pred_scale: 1, history0: 2, history1: 3 }, [0.25; 2]));
    assert!(decode_adpcm(&[0; 8], far, 2, &[0; 16], &mut context, &mut out).is_ok());
}

#[test]
fn coefficients_of_any_number() {
    // Predictor 7 takes the last pair, predictor 0 the first.
    let decode = |header: u8, coefficients: &[i16]| {
        let data = [header, 0];
        let context = AdpcmContext { pred_scale: 0, history0: 100, history1: 10 };
        let mut out = [0.25];
        // SAFETY: each pointer and count are those of one slice or array; the output is borrowed here alone.
        let r = unsafe {
            sys::jeqlluna_decode_adpcm(data.as_ptr(), 2, 0, 1, coefficients.as_ptr(), coefficients.len(), context, out.as_mut_ptr(), 1)
        };
        assert_eq!((r.number, r.done), (0, 1));
        out[0]
    };
    let all = [2048; 20];
    for (n, last) in [(0, 0.0), (14, 0.0), (15, 100.0), (16, 110.0), (20, 110.0)] {
        assert_eq!(decode(0x70, &all[..n]), last);
    }
    assert_eq!([0, 1, 2].map(|n| decode(0x00, &all[..n])), [0.0, 100.0, 110.0]);
}
