//! Why a call was refused.
use core::fmt;

/// Why a call was refused. Nothing that the call was lent has changed.
#[derive(Clone, Copy, Debug, PartialEq, Eq, Hash)]
#[non_exhaustive]
pub enum Refusal {
    /// 1: samples per render are not 1 to 256.
    Samples,
    /// 2: another count of the parameters is too large.
    Counts,
    /// 3: the five slices of the state are not as long as the parameters ask.
    Lengths,
    /// 4: the five slices of the state hold no renderer.
    State,
    /// 5: a range of sample memory ends above 2^63.
    Memory,
    /// 6: the reply slice is too short, or the reply longer than the limit that was given.
    Reply,
    /// 7: the frame slice is shorter than 2 × samples for each render.
    Frames,
    /// 8: the start of an ADPCM decode is above 2^60.
    Start,
    /// 9: the output of an ADPCM decode is shorter than the count.
    Output,
    /// 11: a DSP file has fewer than 96 bytes, or its format, gain or padding is not 0.
    DspHeader,
    /// 12: the data of a DSP file is too short for its samples, or the output for the file.
    DspLength,
    /// 13: there are more than 16 ranges, a part lies outside memory, or a base below the end of the range before.
    Ranges,
    /// 14: a section has more than 1,024 renders.
    Count,
    /// 15: the output of an ADPCM encode is too short for the samples.
    Encoded,
    /// 16: a voice is in use in both blocks of a merge.
    Voices,
    /// 17: a channel is named from both blocks of a merge.
    Channels,
    /// 18: the output of a merge is too short for the block.
    Block,
    /// A number that this version of the crate does not know, from a library of another version.
    Other(u32),
}

impl Refusal {
    /// The number by which the library's functions answer it.
    pub fn number(self) -> u32 {
        match self {
            Refusal::Samples => 1,
            Refusal::Counts => 2,
            Refusal::Lengths => 3,
            Refusal::State => 4,
            Refusal::Memory => 5,
            Refusal::Reply => 6,
            Refusal::Frames => 7,
            Refusal::Start => 8,
            Refusal::Output => 9,
            Refusal::DspHeader => 11,
            Refusal::DspLength => 12,
            Refusal::Ranges => 13,
            Refusal::Count => 14,
            Refusal::Encoded => 15,
            Refusal::Voices => 16,
            Refusal::Channels => 17,
            Refusal::Block => 18,
            Refusal::Other(number) => number,
        }
    }

    /// What an answer's number says: 0 is success.
    pub(crate) fn check(number: u32) -> Result<(), Refusal> {
        Err(match number {
            0 => return Ok(()),
            1 => Refusal::Samples,
            2 => Refusal::Counts,
            3 => Refusal::Lengths,
            4 => Refusal::State,
            5 => Refusal::Memory,
            6 => Refusal::Reply,
            7 => Refusal::Frames,
            8 => Refusal::Start,
            9 => Refusal::Output,
            11 => Refusal::DspHeader,
            12 => Refusal::DspLength,
            13 => Refusal::Ranges,
            14 => Refusal::Count,
            15 => Refusal::Encoded,
            16 => Refusal::Voices,
            17 => Refusal::Channels,
            18 => Refusal::Block,
            number => Refusal::Other(number),
        })
    }

    /// The words of include/jeqlluna.h.
    fn words(self) -> &'static str {
        match self {
            Refusal::Samples => "samples per render are not 1 to 256",
            Refusal::Counts => "another count of the parameters is too large",
            Refusal::Lengths => "the five slices are not as long as the parameters ask",
            Refusal::State => "the five slices hold no renderer",
            Refusal::Memory => "a range of sample memory ends above 2^63",
            Refusal::Reply => "the reply slice is too short",
            Refusal::Frames => "the frame slice is shorter than 2 * samples for each render",
            Refusal::Start => "the start of an ADPCM decode is above 2^60",
            Refusal::Output => "the output of an ADPCM decode is shorter than the count",
            Refusal::DspHeader => "a DSP file has no whole header, or format, gain or padding is not 0",
            Refusal::DspLength => "the data of a DSP file is too short for its samples, or the output for the file",
            Refusal::Ranges => "there are more than 16 ranges, a part lies outside memory, or a base below the end of the range before",
            Refusal::Count => "a section has more than 1,024 renders",
            Refusal::Encoded => "the output of an ADPCM encode is too short for the samples",
            Refusal::Voices => "a voice is in use in both blocks",
            Refusal::Channels => "a channel is named from both blocks",
            Refusal::Block => "the output of a merge is too short for the block",
            Refusal::Other(_) => "an unknown number",
        }
    }
}

impl fmt::Display for Refusal {
    fn fmt(&self, f: &mut fmt::Formatter<'_>) -> fmt::Result {
        write!(f, "{} (refusal {})", self.words(), self.number())
    }
}

impl core::error::Error for Refusal {}
