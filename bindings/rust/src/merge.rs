//! Two update blocks in one.
use crate::{Parameters, Refusal, mode, sys};

/// Makes one update block of a title's and a click track's, to the front of `output`; bytes beyond it stay. Both are inputs of
/// [`Renderer::update`](crate::Renderer::update) for a renderer with these parameters, of any length. Gives the block's length.
///
/// Of each voice the record that is in use is taken; where there is none, in either block, the voice is put out of use. The gains of a
/// channel come from the click's block where one of its voices names the channel, else from the title's. All else is the title's: the
/// header but for the sizes of these two sections, behaviour, pools, effects, splitters, mixes and sinks. Bytes that a block lacks are 0.
///
/// From one renderer, and before the same renders, each voice of the merged block plays as in the block that it came from, as far as its
/// position goes.
///
/// `title.len() + 0x1e0 * voices` bytes of output are enough where the title's header, behaviour section and pools lie inside it. Refused,
/// in this sequence, by 2; by 16, a voice in use in both blocks; 17, a channel named from both; 18, an output too short.
///
/// ```
/// use jeqlluna::{Parameters, Refusal, merge};
///
/// let parameters = Parameters { voices: 2, ..Parameters::default() };
/// // A block with two records, of which one is in use and names the channel of the same number.
/// let block = |voice: usize| {
///     let mut bytes = vec![0; 0x40 + 2 * 0x170];
///     bytes[0x0c..0x10].copy_from_slice(&(2 * 0x170u32).to_le_bytes());
///     let record = &mut bytes[0x40 + voice * 0x170..];
///     (record[0x09], record[0x18], record[0x140]) = (1, 1, voice as u8);
///     bytes
/// };
/// let (title, click, mut output) = (block(0), block(1), [0; 0x40 + 2 * 0x1e0]);
/// assert_eq!(merge(&parameters, &title, &click, &mut output), Ok(0x40 + 2 * 0x1e0));
/// let voices = &output[0x40 + 2 * 0x70..];
/// assert_eq!(voices[..0x170], title[0x40..][..0x170]);
/// assert_eq!(voices[0x170..], click[0x40 + 0x170..]);
/// assert_eq!(merge(&parameters, &title, &title, &mut output), Err(Refusal::Voices));
/// ```
pub fn merge(parameters: &Parameters, title: &[u8], click: &[u8], output: &mut [u8]) -> Result<usize, Refusal> {
    merge_bytes(&parameters.to_bytes(), title, click, output)
}

/// [`merge`] with parameters as a title sends them: any bytes, of which the first [`PARAMETERS`](crate::PARAMETERS) are read.
pub fn merge_bytes(parameters: &[u8], title: &[u8], click: &[u8], output: &mut [u8]) -> Result<usize, Refusal> {
    // SAFETY: each pointer and count are those of one slice; the one that is written is borrowed here alone.
    let r = mode::ordered(|| unsafe {
        sys::jeqlluna_merge(
            parameters.as_ptr(),
            parameters.len(),
            title.as_ptr(),
            title.len(),
            click.as_ptr(),
            click.len(),
            output.as_mut_ptr(),
            output.len(),
        )
    });
    Refusal::check(r.number)?;
    Ok(r.size)
}
