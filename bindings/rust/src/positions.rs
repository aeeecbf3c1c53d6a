//! How far the voices have played: an update without input, and its reply read.
use crate::{Refusal, Renderer};
use alloc::vec::Vec;

/// Bytes of a reply's header, and where it has the sizes of the pools and of the voices. These sections follow it, in this sequence.
pub(crate) const HEADER: usize = 0x40;
pub(crate) const POOLS_SIZE: usize = 0x08;
pub(crate) const VOICES_SIZE: usize = 0x0c;
/// Bytes of a voice in a reply, and where it has its two numbers.
pub(crate) const VOICE: usize = 0x10;
pub(crate) const PLAYED: usize = 0x00;
pub(crate) const CONSUMED: usize = 0x08;

/// The longest reply to an update that expects nothing: that of the largest counts.
pub(crate) const LONGEST: usize = 6672;

/// How far a voice has played. A voice that is not in use, or is new and no render has taken it on yet, is at 0 and 0.
#[derive(Clone, Copy, Debug, Default, PartialEq, Eq)]
pub struct Position {
    /// Samples that the voice has taken from its buffers, at the clip's rate; goes round at 2^64.
    pub played: u64,
    /// Buffers that have ended; goes round at 2^32.
    pub consumed: u32,
}

impl Renderer {
    /// How far each voice has played: the reply to an update without input, read. The renderer stays as it is to the bit, so that a title
    /// may ask at any time, and as often as it likes.
    ///
    /// ```
    /// use jeqlluna::{Parameters, Position, Renderer, revision};
    ///
    /// let parameters = Parameters { samples: 240, voices: 2, revision: revision(8), ..Parameters::default() };
    /// let mut renderer = Renderer::open(&parameters)?;
    /// assert_eq!(renderer.positions()?, [Position { played: 0, consumed: 0 }; 2]);
    /// # Ok::<(), jeqlluna::Refusal>(())
    /// ```
    ///
    /// Refused by 6 where there is no memory for the reply.
    pub fn positions(&mut self) -> Result<Vec<Position>, Refusal> {
        let reply = self.update(0, &[], LONGEST)?;
        Ok(told(&reply))
    }
}

/// The number of 32 bits at a place.
fn word(bytes: &[u8], at: usize) -> u32 {
    u32::from_le_bytes([bytes[at], bytes[at + 1], bytes[at + 2], bytes[at + 3]])
}

/// The positions that a reply tells.
fn told(reply: &[u8]) -> Vec<Position> {
    let voices = &reply[HEADER + word(reply, POOLS_SIZE) as usize..][..word(reply, VOICES_SIZE) as usize];
    let position = |voice: &[u8]| Position {
        played: u64::from(word(voice, PLAYED)) | u64::from(word(voice, PLAYED + 4)) << 32,
        consumed: word(voice, CONSUMED),
    };
    voices.chunks_exact(VOICE).map(position).collect()
}
