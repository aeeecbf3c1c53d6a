//! A renderer that owns its state.
use crate::range::NUMBERS;
use crate::{PARAMETERS, Parameters, Range, Refusal, mode, parameters, sys};
use alloc::vec;
use alloc::vec::Vec;

/// The bytes that a renderer holds at most, on the heap, whatever its parameters.
pub const MOST_HELD: usize = 157_476;

/// A renderer. A call that is refused leaves it, and what it was lent, as it was. A clone goes on by itself.
#[derive(Clone, Debug)]
pub struct Renderer {
    /// The bytes that it was opened with, as far as they are read.
    pub(crate) parameters: Vec<u8>,
    pub(crate) words: Vec<u32>,
    pub(crate) longs: Vec<u64>,
    pub(crate) floats: Vec<f32>,
    pub(crate) contexts: Vec<u16>,
    pub(crate) history: Vec<f32>,
}

impl Renderer {
    /// Opens a renderer. Refused by 1 and 2.
    pub fn open(parameters: &Parameters) -> Result<Renderer, Refusal> {
        Renderer::open_bytes(&parameters.to_bytes())
    }

    /// Opens a renderer with parameters as a title sends them: any bytes, of which the first [`PARAMETERS`] are read. Refused by 1 and 2.
    pub fn open_bytes(parameters: &[u8]) -> Result<Renderer, Refusal> {
        // SAFETY: the pointer and the count are those of one slice, which is only read.
        let n = mode::ordered(|| unsafe { sys::jeqlluna_lengths(parameters.as_ptr(), parameters.len()) });
        Refusal::check(n.number)?;
        let mut r = Renderer {
            parameters: parameters[..parameters.len().min(PARAMETERS)].to_vec(),
            words: vec![0; n.words],
            longs: vec![0; n.longs],
            floats: vec![0.0; n.floats],
            contexts: vec![0; n.contexts],
            history: vec![0.0; n.history],
        };
        // SAFETY: each pointer and count are those of one slice; the five that are written are borrowed here alone.
        let number = mode::ordered(|| unsafe {
            sys::jeqlluna_open(
                parameters.as_ptr(),
                parameters.len(),
                r.words.as_mut_ptr(),
                r.words.len(),
                r.longs.as_mut_ptr(),
                r.longs.len(),
                r.floats.as_mut_ptr(),
                r.floats.len(),
                r.contexts.as_mut_ptr(),
                r.contexts.len(),
                r.history.as_mut_ptr(),
                r.history.len(),
            )
        });
        Refusal::check(number)?;
        Ok(r)
    }

    /// How many bytes the reply has to an update that expects so many.
    pub fn reply_length(&self, expected: u32) -> Result<usize, Refusal> {
        parameters::reply_length(&self.parameters, expected)
    }

    /// A title's update; `expected` is the size of reply that the title expects, `input` its bytes. Gives the reply.
    ///
    /// An input of no bytes leaves the renderer as it is, and the reply tells how far each voice has played ([`Renderer::positions`] reads
    /// it). Any longer input puts each voice out of use whose record is missing from it.
    ///
    /// A reply longer than `limit` bytes is refused by 6, before anything is allocated for it; so is one for which there is no memory.
    pub fn update(&mut self, expected: u32, input: &[u8], limit: usize) -> Result<Vec<u8>, Refusal> {
        let size = self.reply_length(expected)?;
        let mut reply = Vec::new();
        if size > limit || reply.try_reserve_exact(size).is_err() {
            return Err(Refusal::Reply);
        }
        reply.resize(size, 0);
        let size = self.update_into(expected, input, &mut reply)?;
        reply.truncate(size);
        Ok(reply)
    }

    /// An update whose reply goes to the front of a slice; bytes beyond it stay. Gives the reply's length. Refused by 6.
    pub fn update_into(&mut self, expected: u32, input: &[u8], reply: &mut [u8]) -> Result<usize, Refusal> {
        // SAFETY: each pointer and count are those of one slice; the six that are written are borrowed here alone.
        let r = mode::ordered(|| unsafe {
            sys::jeqlluna_update(
                self.words.as_mut_ptr(),
                self.words.len(),
                self.longs.as_mut_ptr(),
                self.longs.len(),
                self.floats.as_mut_ptr(),
                self.floats.len(),
                self.contexts.as_mut_ptr(),
                self.contexts.len(),
                self.history.as_mut_ptr(),
                self.history.len(),
                expected,
                input.as_ptr(),
                input.len(),
                reply.as_mut_ptr(),
                reply.len(),
            )
        });
        Refusal::check(r.number)?;
        Ok(r.size)
    }

    /// Renders to the front of `frames`, left and right by turns; floats beyond 2 × samples stay. Each frame is in -1..1 or NaN. A voice
    /// so slow that it needs no new sample is interpolated from its last three and a fourth, 2 × third - second. Gives the rounds that the
    /// voices' fetches took.
    ///
    /// Sample memory is what the ranges say of `memory` ([`Range::whole`]: all of it, from an address on); where there is none, it has no
    /// bytes. Refused by 13, 5 and 7, in this sequence.
    pub fn render(&mut self, ranges: &[Range], memory: &[u8], frames: &mut [f32]) -> Result<u32, Refusal> {
        // SAFETY: each pointer and count are those of one slice, the ranges' that of their numbers, three of 64 bits each and nothing
        // between; the six that are written are borrowed here alone.
        let r = mode::ordered(|| unsafe {
            sys::jeqlluna_render(
                self.words.as_mut_ptr(),
                self.words.len(),
                self.longs.as_mut_ptr(),
                self.longs.len(),
                self.floats.as_mut_ptr(),
                self.floats.len(),
                self.contexts.as_mut_ptr(),
                self.contexts.len(),
                self.history.as_mut_ptr(),
                self.history.len(),
                ranges.as_ptr().cast(),
                NUMBERS * ranges.len(),
                memory.as_ptr(),
                memory.len(),
                frames.as_mut_ptr(),
                frames.len(),
            )
        });
        Refusal::check(r.number)?;
        Ok(r.rounds)
    }

    /// A section: so many renders, 1,024 at most, one after the other, each with the same ranges and memory, to the front of `frames`, 2 ×
    /// samples floats for each; floats beyond them stay. Frames, what the renderer holds and the rounds, in sum, are those of so many calls
    /// of [`Renderer::render`]. A section of 0 changes nothing and needs no float.
    ///
    /// ```
    /// use jeqlluna::{Parameters, Range, Renderer, revision};
    ///
    /// let parameters = Parameters { samples: 240, voices: 2, revision: revision(8), ..Parameters::default() };
    /// let mut renderer = Renderer::open(&parameters)?;
    /// let (memory, mut frames) = ([0; 4096], [0.0; 8 * 480]);
    /// renderer.render_section(8, &[Range::whole(0x10000, &memory)], &memory, &mut frames)?;
    /// for render in frames.chunks(480) {
    ///     // 240 frames, left and right by turns.
    /// #   assert_eq!(render, [0.0; 480]);
    /// }
    /// # Ok::<(), jeqlluna::Refusal>(())
    /// ```
    ///
    /// Refused by 13, 5, 14 (the count) and 7, in this sequence.
    pub fn render_section(&mut self, count: u32, ranges: &[Range], memory: &[u8], frames: &mut [f32]) -> Result<u32, Refusal> {
        // SAFETY: each pointer and count are those of one slice, the ranges' that of their numbers, three of 64 bits each and nothing
        // between; the six that are written are borrowed here alone.
        let r = mode::ordered(|| unsafe {
            sys::jeqlluna_render_section(
                self.words.as_mut_ptr(),
                self.words.len(),
                self.longs.as_mut_ptr(),
                self.longs.len(),
                self.floats.as_mut_ptr(),
                self.floats.len(),
                self.contexts.as_mut_ptr(),
                self.contexts.len(),
                self.history.as_mut_ptr(),
                self.history.len(),
                count,
                ranges.as_ptr().cast(),
                NUMBERS * ranges.len(),
                memory.as_ptr(),
                memory.len(),
                frames.as_mut_ptr(),
                frames.len(),
            )
        });
        Refusal::check(r.number)?;
        Ok(r.rounds)
    }

    /// The sub-mixes that a render runs, by number, in their sequence.
    pub fn mix_order(&self) -> Result<Vec<u32>, Refusal> {
        // SAFETY: each pointer and count are those of one slice, which is only read.
        let r = mode::ordered(|| unsafe {
            sys::jeqlluna_mix_order(
                self.words.as_ptr(),
                self.words.len(),
                self.longs.as_ptr(),
                self.longs.len(),
                self.floats.as_ptr(),
                self.floats.len(),
                self.contexts.as_ptr(),
                self.contexts.len(),
                self.history.as_ptr(),
                self.history.len(),
            )
        });
        Refusal::check(r.number)?;
        Ok(r.mixes.iter().copied().take(r.count as usize).collect())
    }
}
