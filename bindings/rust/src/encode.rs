//! Samples as ADPCM frames.
use crate::{AdpcmContext, Refusal, mode, sys};

/// What an encode gives.
#[derive(Clone, Copy, Debug, PartialEq, Eq)]
pub struct Encoded {
    /// Bytes written: 8 for each 14 samples; of the rest, if there is any, a byte for its header and one for each two or a last one alone.
    pub size: usize,
    /// The sum of the squared differences between the samples and what they decode to; 2^64 - 1 if it would be more.
    pub error: u64,
}

/// Encodes samples as ADPCM frames to the front of `output`, and leaves the context for the next; bytes beyond them stay. From the context
/// as it was, [`decode_adpcm`](crate::decode_adpcm) gives back the samples that the error was counted with. No encoding of a frame has a
/// lesser error among those that take the nearest nibble for each sample in turn, with any predictor and scale. Refused by 15, where the
/// output has less than [`size`](Encoded::size) bytes; 8 for each 14 samples, rounded up, are always enough.
///
/// After whole frames a next call goes on with the context that this one left.
///
/// ```
/// use jeqlluna::{AdpcmContext, Encoded, decode_adpcm, encode_adpcm};
///
/// let (samples, coefficients) = ([1000, 1900, 2700], [2048, 0, 4096, -2048, 0, 0, 0, 0, 0, 0, 0, 0, 0, 0, 0, 0]);
/// let (mut context, mut output) = (AdpcmContext::default(), [0; 8]);
/// let encoded = encode_adpcm(&samples, &coefficients, &mut context, &mut output)?;
/// assert_eq!(encoded, Encoded { size: 3, error: 11360 });
///
/// let (mut from, mut decoded) = (AdpcmContext::default(), [0.0; 3]);
/// decode_adpcm(&output[..encoded.size], 0, 3, &coefficients, &mut from, &mut decoded)?;
/// assert_eq!(decoded, [896.0, 1920.0, 2688.0]);
/// assert_eq!((from, context.history0), (context, 2688));
/// # Ok::<(), jeqlluna::Refusal>(())
/// ```
pub fn encode_adpcm(samples: &[i16], coefficients: &[i16; 16], context: &mut AdpcmContext, output: &mut [u8]) -> Result<Encoded, Refusal> {
    // SAFETY: each pointer and count are those of one slice; the one that is written is borrowed here alone.
    let r = mode::ordered(|| unsafe {
        sys::jeqlluna_encode_adpcm(
            samples.as_ptr(),
            samples.len(),
            coefficients.as_ptr(),
            coefficients.len(),
            *context,
            output.as_mut_ptr(),
            output.len(),
        )
    });
    Refusal::check(r.number)?;
    *context = r.context;
    Ok(Encoded { size: r.size, error: r.error })
}
