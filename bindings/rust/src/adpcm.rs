//! ADPCM alone, without a renderer.
use crate::{AdpcmContext, Refusal, mode, sys};

/// Decodes `count` ADPCM samples from sample `start` on to the front of `output`, as whole numbers in the 16-bit range, and leaves the
/// context for the next. Gives how many the data held; floats beyond them stay. The data's first byte is the one that holds the start's
/// nibble. Refused by 8 and 9.
///
/// ```
/// use jeqlluna::{AdpcmContext, decode_adpcm};
///
/// let (mut context, mut output) = (AdpcmContext::default(), [0.0; 2]);
/// assert_eq!(decode_adpcm(&[0x00, 0x1f], 0, 2, &[0; 16], &mut context, &mut output), Ok(2));
/// assert_eq!(output, [1.0, -1.0]);
/// ```
pub fn decode_adpcm(
    data: &[u8],
    start: u64,
    count: usize,
    coefficients: &[i16; 16],
    context: &mut AdpcmContext,
    output: &mut [f32],
) -> Result<usize, Refusal> {
    // SAFETY: each pointer and count are those of one slice; the one that is written is borrowed here alone.
    let r = mode::ordered(|| unsafe {
        sys::jeqlluna_decode_adpcm(
            data.as_ptr(),
            data.len(),
            start,
            count,
            coefficients.as_ptr(),
            coefficients.len(),
            *context,
            output.as_mut_ptr(),
            output.len(),
        )
    });
    Refusal::check(r.number)?;
    *context = r.context;
    Ok(r.done)
}
