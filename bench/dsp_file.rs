//! The calls for DSP files: a write of 1 MB against Rust's `copy_from_slice` of the same data to the same place, and the times of a write
//! without data and of a read, which looks at the header alone.
use std::hint::black_box;
use std::time::Instant;

#[path = "../bindings/rust/src/sys/mod.rs"]
mod sys;
use sys::{AdpcmContext, DspHeader, jeqlluna_read_dsp, jeqlluna_write_dsp};

const HEADER: usize = 96;
const BYTES: usize = 1 << 20;

/// The time of a call in a run of so many, in nanoseconds.
fn time(times: u32, mut call: impl FnMut()) -> f64 {
    let t = Instant::now();
    (0..times).for_each(|_| call());
    t.elapsed().as_nanos() as f64 / f64::from(times)
}

/// A write that succeeds.
fn write(header: &DspHeader, data: &[u8], file: &mut [u8]) {
    let w = unsafe { jeqlluna_write_dsp(black_box(*header), black_box(data.as_ptr()), data.len(), file.as_mut_ptr(), file.len()) };
    assert_eq!((w.number, w.size), (0, HEADER + data.len()));
}

fn main() {
    let data: Vec<u8> = (0..BYTES as u32).map(|k| (k.wrapping_mul(2654435761) >> 24) as u8).collect();
    let header = DspHeader {
        samples: BYTES as u32 / 8 * 14,
        coefficients: std::array::from_fn(|k| k as i16 * 700 - 3000),
        start_context: AdpcmContext { pred_scale: 0x17, history0: -5, history1: 7 },
        ..DspHeader::default()
    };
    let none = DspHeader { samples: 0, ..header };
    let (mut file, mut copy) = (vec![0; HEADER + BYTES], vec![0; HEADER + BYTES]);
    // The least of many runs, taken in turn, so that all see the same machine.
    let [mut whole, mut plain, mut head, mut read] = [f64::MAX; 4];
    for _ in 0..400 {
        whole = whole.min(time(2, || write(&header, &data, &mut file)));
        plain = plain.min(time(2, || black_box(&mut copy[HEADER..]).copy_from_slice(black_box(&data))));
        read = read.min(time(1000, || {
            let r = unsafe { jeqlluna_read_dsp(black_box(file.as_ptr()), file.len()) };
            assert_eq!((r.number, black_box(r.header), r.data_len), (0, header, BYTES));
        }));
        head = head.min(time(1000, || write(&none, &[], &mut copy)));
    }
    assert_eq!(file[HEADER..], copy[HEADER..]);
    println!("write_dsp, 1 MB of data, over copy_from_slice: {:.2}", whole / plain);
    println!("write_dsp, no data: {head:.0} ns");
    println!("read_dsp, 1 MB of data: {read:.0} ns");
}
