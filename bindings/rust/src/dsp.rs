//! Clips as DSP files: a header of 96 bytes, big-endian, and ADPCM frames.
use crate::{DspHeader, Refusal, mode, sys};

/// The header of a DSP file and its data, which is everything behind the header. The data holds the samples that the header states, and is
/// kept beyond them. Refused by 11 and 12.
///
/// ```
/// use jeqlluna::{decode_adpcm, read_dsp};
///
/// let mut file = [0; 98];
/// file[3] = 2; // samples
/// file[96..].copy_from_slice(&[0x00, 0x1f]);
/// let (header, data) = read_dsp(&file)?;
/// let (mut context, mut output) = (header.start_context, [0.0; 2]);
/// decode_adpcm(data, 0, header.samples as usize, &header.coefficients, &mut context, &mut output)?;
/// assert_eq!(output, [1.0, -1.0]);
/// # Ok::<(), jeqlluna::Refusal>(())
/// ```
pub fn read_dsp(file: &[u8]) -> Result<(DspHeader, &[u8]), Refusal> {
    // SAFETY: the pointer and the count are those of one slice, which is only read.
    let r = mode::ordered(|| unsafe { sys::jeqlluna_read_dsp(file.as_ptr(), file.len()) });
    Refusal::check(r.number)?;
    Ok((r.header, file.get(r.data..).unwrap_or_default()))
}

/// Writes a DSP file of this header and all of this data to the front of `output`; bytes beyond them stay. Gives how many were written, 96
/// and the data's. Refused by 11, for format and gain, and by 12.
///
/// ```
/// use jeqlluna::{DspHeader, read_dsp, write_dsp};
///
/// let header = DspHeader { samples: 2, rate: 32000, ..DspHeader::default() };
/// let mut file = [0; 98];
/// assert_eq!(write_dsp(&header, &[0x00, 0x1f], &mut file), Ok(98));
/// assert_eq!(read_dsp(&file), Ok((header, &[0x00, 0x1f][..])));
/// ```
pub fn write_dsp(header: &DspHeader, data: &[u8], output: &mut [u8]) -> Result<usize, Refusal> {
    // SAFETY: each pointer and count are those of one slice; the one that is written is borrowed here alone.
    let r = mode::ordered(|| unsafe { sys::jeqlluna_write_dsp(*header, data.as_ptr(), data.len(), output.as_mut_ptr(), output.len()) });
    Refusal::check(r.number)?;
    Ok(r.size)
}
