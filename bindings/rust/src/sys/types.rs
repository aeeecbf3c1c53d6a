//! What the library's functions take and answer, laid out as in C.

/// How many elements each slice of a renderer has.
#[repr(C)]
#[derive(Clone, Copy, Debug, PartialEq, Eq)]
pub struct Lengths {
    /// 0, or the refusal's number.
    pub number: u32,
    /// Elements of the slice `words`.
    pub words: usize,
    /// Elements of the slice `longs`.
    pub longs: usize,
    /// Elements of the slice `floats`.
    pub floats: usize,
    /// Elements of the slice `contexts`.
    pub contexts: usize,
    /// Elements of the slice `history`.
    pub history: usize,
}

/// How long a reply is.
#[repr(C)]
#[derive(Clone, Copy, Debug, PartialEq, Eq)]
pub struct Length {
    /// 0, or the refusal's number.
    pub number: u32,
    /// Bytes of the reply.
    pub size: usize,
}

/// What an update answers.
#[repr(C)]
#[derive(Clone, Copy, Debug, PartialEq, Eq)]
pub struct Update {
    /// 0, or the refusal's number.
    pub number: u32,
    /// Bytes of the reply.
    pub size: usize,
}

/// What a render answers.
#[repr(C)]
#[derive(Clone, Copy, Debug, PartialEq, Eq)]
pub struct Render {
    /// 0, or the refusal's number.
    pub number: u32,
    /// The rounds that the fetches of all voices took, of a section in all its renders.
    pub rounds: u32,
}

/// The sub-mixes that run.
#[repr(C)]
#[derive(Clone, Copy, Debug, PartialEq, Eq)]
pub struct Order {
    /// 0, or the refusal's number.
    pub number: u32,
    /// How many run.
    pub count: u32,
    /// Their numbers, the first to run first; 0 beyond the count.
    pub mixes: [u32; 31],
}

/// What an ADPCM decode or encode starts from and leaves: the last header, the last sample and the one before it.
#[repr(C)]
#[derive(Clone, Copy, Debug, Default, PartialEq, Eq)]
pub struct AdpcmContext {
    /// The last frame's header: predictor and scale.
    pub pred_scale: u16,
    /// The last sample.
    pub history0: i16,
    /// The sample before it.
    pub history1: i16,
}

/// What an ADPCM decode answers.
#[repr(C)]
#[derive(Clone, Copy, Debug, PartialEq, Eq)]
pub struct Decoded {
    /// 0, or the refusal's number.
    pub number: u32,
    /// Samples decoded, fewer than asked for where the data ran out.
    pub done: usize,
    /// The context for the next decode.
    pub context: AdpcmContext,
}

/// What an ADPCM encode answers.
#[repr(C)]
#[derive(Clone, Copy, Debug, PartialEq, Eq)]
pub struct Encoded {
    /// 0, or the refusal's number.
    pub number: u32,
    /// Bytes written.
    pub size: usize,
    /// The context for the next encode.
    pub context: AdpcmContext,
    /// The sum of the squared differences between what was encoded and what it decodes to; 2^64 - 1 if it would be more.
    pub error: u64,
}

/// The values of a DSP file's header, in the file's sequence; padding is none of them.
#[repr(C)]
#[derive(Clone, Copy, Debug, Default, PartialEq, Eq)]
pub struct DspHeader {
    /// How many samples the data holds at least.
    pub samples: u32,
    /// Nibbles, with those of the frames' headers; nothing is held to it.
    pub nibbles: u32,
    /// Samples in a second.
    pub rate: u32,
    /// Whether the clip loops.
    pub loop_flag: u16,
    /// 0 for ADPCM; any other is refused.
    pub format: u16,
    /// Where the loop starts.
    pub loop_start: u32,
    /// Where the loop ends.
    pub loop_end: u32,
    /// The current address.
    pub address: u32,
    /// Eight pairs of coefficients, as [`jeqlluna_decode_adpcm`](super::jeqlluna_decode_adpcm) takes them.
    pub coefficients: [i16; 16],
    /// 0; any other is refused.
    pub gain: u16,
    /// What a decode from the first sample on starts from.
    pub start_context: AdpcmContext,
    /// What a decode from the loop's start on starts from.
    pub loop_context: AdpcmContext,
}

/// What a DSP file has.
#[repr(C)]
#[derive(Clone, Copy, Debug, PartialEq, Eq)]
pub struct DspRead {
    /// 0, or the refusal's number.
    pub number: u32,
    /// Its header.
    pub header: DspHeader,
    /// Where its data begins: 96.
    pub data: usize,
    /// Bytes of its data: all up to the file's end.
    pub data_len: usize,
}

/// What writing a DSP file answers.
#[repr(C)]
#[derive(Clone, Copy, Debug, PartialEq, Eq)]
pub struct DspWritten {
    /// 0, or the refusal's number.
    pub number: u32,
    /// Bytes written: 96 and the data's.
    pub size: usize,
}

/// What a merge answers.
#[repr(C)]
#[derive(Clone, Copy, Debug, PartialEq, Eq)]
pub struct Merged {
    /// 0, or the refusal's number.
    pub number: u32,
    /// Bytes of the merged block.
    pub size: usize,
}
