//! Makes a DSP file of a recording: 16 coefficients, the three numbers of a context and samples, 16-bit numbers in little-endian bytes, as
//! examples/make_recording.py of the repository writes them.
//!
//!     cargo run --example record -- ../../examples/phrase.recording 8000 phrase.dsp
use jeqlluna::{AdpcmContext, DspHeader, encode_adpcm, write_dsp};

/// How many nibbles stand up to the last sample's, with those of the frames' headers.
fn nibbles(samples: u32) -> u32 {
    samples / 14 * 16 + if samples % 14 > 0 { samples % 14 + 2 } else { 0 }
}

fn main() -> Result<(), Box<dyn std::error::Error>> {
    let arguments: Vec<String> = std::env::args().skip(1).collect();
    let [recording, rate, file] = &arguments[..] else { return Err("record RECORDING RATE FILE".into()) };
    let bytes = std::fs::read(recording)?;
    let numbers: Vec<i16> = bytes.chunks_exact(2).map(|two| i16::from_le_bytes([two[0], two[1]])).collect();
    let (coefficients, rest) = numbers.split_first_chunk::<16>().ok_or("no coefficients")?;
    let (&[pred_scale, history0, history1], samples) = rest.split_first_chunk::<3>().ok_or("no context")?;
    let first = AdpcmContext { pred_scale: pred_scale as u16, history0, history1 };

    // 8 bytes for each 14 samples, rounded up, are enough.
    let (mut context, mut data) = (first, vec![0; samples.len().div_ceil(14) * 8]);
    let encoded = encode_adpcm(samples, coefficients, &mut context, &mut data)?;
    data.truncate(encoded.size);

    let count = u32::try_from(samples.len())?;
    let header = DspHeader {
        samples: count,
        nibbles: nibbles(count),
        rate: rate.parse()?,
        address: 2,
        coefficients: *coefficients,
        // A file gives the first frame's header here; a decode from the first sample on reads it from the data.
        start_context: AdpcmContext { pred_scale: data.first().copied().unwrap_or(0).into(), ..first },
        ..DspHeader::default()
    };
    let mut output = vec![0; 96 + data.len()];
    write_dsp(&header, &data, &mut output)?;
    std::fs::write(file, &output)?;
    println!("{count} samples in {} bytes, the squared differences sum up to {}", encoded.size, encoded.error);
    Ok(())
}
