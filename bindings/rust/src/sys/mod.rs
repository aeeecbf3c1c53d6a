//! The library's functions as C sees them (include/jeqlluna.h): a slice is a pointer and a count.
//!
//! # Safety
//!
//! For each function: every pointer is aligned, so many elements lie there, and a slice that is written overlaps no other slice of the
//! call and is used by nobody else meanwhile. Where a count is 0 the pointer may be null. The floating-point mode is the one that Rust
//! assumes.
//!
//! Each answer has a number: 0, or that of a refusal. Then the other results are 0 and no slice has changed.

mod types;

pub use types::{AdpcmContext, Decoded, DspHeader, DspRead, DspWritten, Encoded, Length, Lengths, Merged, Order, Render, Update};

unsafe extern "C" {
    /// How long the five slices of a renderer must be. Refusals: 1, 2.
    pub fn jeqlluna_lengths(parameters: *const u8, parameters_len: usize) -> Lengths;

    /// How long the reply of a renderer with these parameters is to an update that expects so many bytes. Refusals: 1, 2.
    pub fn jeqlluna_reply_length(parameters: *const u8, parameters_len: usize, expected: u32) -> Length;

    /// Makes a renderer, whatever its slices held. Refusals: 1, 2, 3.
    pub fn jeqlluna_open(
        parameters: *const u8,
        parameters_len: usize,
        words: *mut u32,
        words_len: usize,
        longs: *mut u64,
        longs_len: usize,
        floats: *mut f32,
        floats_len: usize,
        contexts: *mut u16,
        contexts_len: usize,
        history: *mut f32,
        history_len: usize,
    ) -> u32;

    /// A title's update; the reply goes to the front of its slice. An input of length 0 leaves the five slices as they are, and the reply
    /// tells the positions as they stand. Refusals: 4, 6.
    pub fn jeqlluna_update(
        words: *mut u32,
        words_len: usize,
        longs: *mut u64,
        longs_len: usize,
        floats: *mut f32,
        floats_len: usize,
        contexts: *mut u16,
        contexts_len: usize,
        history: *mut f32,
        history_len: usize,
        expected: u32,
        input: *const u8,
        input_len: usize,
        reply: *mut u8,
        reply_len: usize,
    ) -> Update;

    /// One render; the frames go to the front of their slice. Sample memory is in ranges of three numbers each: base, start and length
    /// ([`crate::Range`]); one or two numbers left over are no range. Refusals, in this sequence: 4, 13, 5, 7.
    pub fn jeqlluna_render(
        words: *mut u32,
        words_len: usize,
        longs: *mut u64,
        longs_len: usize,
        floats: *mut f32,
        floats_len: usize,
        contexts: *mut u16,
        contexts_len: usize,
        history: *mut f32,
        history_len: usize,
        ranges: *const u64,
        ranges_len: usize,
        memory: *const u8,
        memory_len: usize,
        frames: *mut f32,
        frames_len: usize,
    ) -> Render;

    /// So many renders, 1,024 at most, one after the other with the same ranges and memory: [`jeqlluna_render`] as often. Their frames go
    /// to the front of the slice, one behind the other; the rounds are their sum. Refusals, in this sequence: 4, 13, 5, 14, 7.
    pub fn jeqlluna_render_section(
        words: *mut u32,
        words_len: usize,
        longs: *mut u64,
        longs_len: usize,
        floats: *mut f32,
        floats_len: usize,
        contexts: *mut u16,
        contexts_len: usize,
        history: *mut f32,
        history_len: usize,
        count: u32,
        ranges: *const u64,
        ranges_len: usize,
        memory: *const u8,
        memory_len: usize,
        frames: *mut f32,
        frames_len: usize,
    ) -> Render;

    /// The sub-mixes that a render runs, in their sequence. Refusal: 4.
    pub fn jeqlluna_mix_order(
        words: *const u32,
        words_len: usize,
        longs: *const u64,
        longs_len: usize,
        floats: *const f32,
        floats_len: usize,
        contexts: *const u16,
        contexts_len: usize,
        history: *const f32,
        history_len: usize,
    ) -> Order;

    /// Decodes ADPCM samples to the front of the output; no renderer is needed. Refusals: 8, 9.
    pub fn jeqlluna_decode_adpcm(
        data: *const u8,
        data_len: usize,
        start: u64,
        count: usize,
        coefficients: *const i16,
        coefficients_len: usize,
        context: AdpcmContext,
        output: *mut f32,
        output_len: usize,
    ) -> Decoded;

    /// Encodes samples as ADPCM frames to the front of the output; no renderer is needed. Refusal: 15.
    pub fn jeqlluna_encode_adpcm(
        samples: *const i16,
        samples_len: usize,
        coefficients: *const i16,
        coefficients_len: usize,
        context: AdpcmContext,
        output: *mut u8,
        output_len: usize,
    ) -> Encoded;

    /// The header of a DSP file, and where its data stands. Refusals: 11, 12.
    pub fn jeqlluna_read_dsp(file: *const u8, file_len: usize) -> DspRead;

    /// Writes a DSP file to the front of the output. Refusals: 11, 12.
    pub fn jeqlluna_write_dsp(header: DspHeader, data: *const u8, data_len: usize, output: *mut u8, output_len: usize) -> DspWritten;

    /// One update block of a title's and a click track's, to the front of the output. Refusals, in this sequence: 2, 16, 17, 18.
    pub fn jeqlluna_merge(
        parameters: *const u8,
        parameters_len: usize,
        title: *const u8,
        title_len: usize,
        click: *const u8,
        click_len: usize,
        output: *mut u8,
        output_len: usize,
    ) -> Merged;
}
