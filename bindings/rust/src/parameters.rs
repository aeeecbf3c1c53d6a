//! What a renderer is opened with.
use crate::{Refusal, mode, sys};

/// Bytes of the parameters. Of fewer bytes a field that is not whole is 0; of more the rest is not read.
pub const PARAMETERS: usize = 0x34;

/// What a renderer is opened with. A count that is too large is refused when it is opened.
///
/// ```
/// use jeqlluna::{Parameters, revision};
///
/// let p = Parameters { sample_rate: 48000, samples: 240, voices: 24, revision: revision(8), ..Parameters::default() };
/// assert_eq!(p.to_bytes()[0x10], 24);
/// ```
#[derive(Clone, Copy, Debug, Default, PartialEq, Eq, Hash)]
pub struct Parameters {
    /// Samples of the output in a second; any number.
    pub sample_rate: u32,
    /// Samples of a render, 1 to 256.
    pub samples: u32,
    /// Mix buffers, at most 96.
    pub mix_buffers: u32,
    /// Sub-mixes beside the final mix, at most 31.
    pub sub_mixes: u32,
    /// Voices, at most 64.
    pub voices: u32,
    /// Sinks, at most 8.
    pub sinks: u32,
    /// Effects, at most 64.
    pub effects: u32,
    /// Splitters, at most 32.
    pub splitters: u32,
    /// Destinations of splitters, at most 128.
    pub destinations: u32,
    /// The revision word; [`revision`] makes one.
    pub revision: u32,
}

/// The revision word of a revision by number, `REV` and a character: `revision(5)` is `REV5`.
pub const fn revision(number: u8) -> u32 {
    u32::from_le_bytes([b'R', b'E', b'V', b'0'.wrapping_add(number)])
}

impl Parameters {
    /// The bytes that [`Renderer::open_bytes`](crate::Renderer::open_bytes) and the C functions take.
    pub fn to_bytes(&self) -> [u8; PARAMETERS] {
        let mut bytes = [0; PARAMETERS];
        for (at, value) in [
            (0x00, self.sample_rate),
            (0x04, self.samples),
            (0x08, self.mix_buffers),
            (0x0c, self.sub_mixes),
            (0x10, self.voices),
            (0x14, self.sinks),
            (0x18, self.effects),
            (0x24, self.splitters),
            (0x28, self.destinations),
            (0x30, self.revision),
        ] {
            bytes[at..at + 4].copy_from_slice(&value.to_le_bytes());
        }
        bytes
    }

    /// How many bytes the reply has to an update that expects so many. Refused by 1 and 2.
    pub fn reply_length(&self, expected: u32) -> Result<usize, Refusal> {
        reply_length(&self.to_bytes(), expected)
    }
}

/// How many bytes the reply has, of a renderer with these parameter bytes.
pub(crate) fn reply_length(parameters: &[u8], expected: u32) -> Result<usize, Refusal> {
    // SAFETY: the pointer and the count are those of one slice, which is only read.
    let r = mode::ordered(|| unsafe { sys::jeqlluna_reply_length(parameters.as_ptr(), parameters.len(), expected) });
    Refusal::check(r.number)?;
    Ok(r.size)
}
