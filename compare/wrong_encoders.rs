//! What is wrong in the variants of the plain encoder, each of which the driver `encode` must notice.
use crate::plain_encoder::{Call, Context, Encoded};

#[derive(Clone, Copy, Debug, PartialEq)]
pub enum Wrong {
    Nothing,
    // Nibbles.
    UpperNibble,
    NibbleNearerZero,
    NoNibbleMinus8,
    NoNibble7,
    NearestBeforeTheClamp,
    // Headers.
    LastHeader,
    CarriedHeaderFirst,
    CarriedHeaderAlways,
    ScalesFirst,
    Headers127,
    NoHeader0,
    ScalesTo12,
    SevenPredictors,
    ChosenByAbsoluteSum,
    ChosenByGreatest,
    ChosenByLastSample,
    // The decoder's step.
    NoRounding,
    TowardZero,
    ClampOf17Bits,
    ClampEven,
    PairExchanged,
    PredictorMaskedWith3,
    // Coefficients.
    LastCoefficientAgain,
    LastSixteen,
    HalfAPairIsNone,
    // Histories.
    OriginalsAsHistory,
    OriginalsBetweenFrames,
    SecondHistoryKept,
    HistoriesExchanged,
    EachFrameFromTheContext,
    EachFrameFromZero,
    // Bytes.
    FramesOf13,
    LowNibbleFirst,
    NibblesFromMinus8,
    HeaderHalvesExchanged,
    UnusedNibbleAgain,
    UnusedNibble15,
    ShortFrameFilled,
    ByteBeyond,
    RestCleared,
    // The answer.
    SizeOneMore,
    SizeOneLess,
    SizeOfWholeFrames,
    ErrorNotSquared,
    ErrorIn32Bits,
    ErrorHeldAt32Bits,
    ErrorOfTheLastFrame,
    HeaderNotReplaced,
    HeaderOfTheFirstFrame,
    UpperHeaderBitsStay,
    ContextOfOriginals,
    ContextExchanged,
    OneSampleClearsTheOther,
    NoSamplesClearTheContext,
    NoSamplesClearTheHeader,
    // The question.
    RoomOneLess,
    RoomOneMore,
    RoomOfWholeFrames,
    BytesAtRefusal,
    ContextAtRefusal,
    SizeAtRefusal,
}

/// All that are wrong.
pub const WRONG: [Wrong; 61] = {
    use Wrong::*;
    [
        UpperNibble, NibbleNearerZero, NoNibbleMinus8, NoNibble7, NearestBeforeTheClamp, LastHeader, CarriedHeaderFirst,
        CarriedHeaderAlways, ScalesFirst, Headers127, NoHeader0, ScalesTo12, SevenPredictors, ChosenByAbsoluteSum, ChosenByGreatest,
        ChosenByLastSample, NoRounding, TowardZero, ClampOf17Bits, ClampEven, PairExchanged, PredictorMaskedWith3,
        LastCoefficientAgain, LastSixteen, HalfAPairIsNone, OriginalsAsHistory, OriginalsBetweenFrames, SecondHistoryKept,
        HistoriesExchanged, EachFrameFromTheContext, EachFrameFromZero, FramesOf13, LowNibbleFirst, NibblesFromMinus8,
        HeaderHalvesExchanged, UnusedNibbleAgain, UnusedNibble15, ShortFrameFilled, ByteBeyond, RestCleared, SizeOneMore,
        SizeOneLess, SizeOfWholeFrames, ErrorNotSquared, ErrorIn32Bits, ErrorHeldAt32Bits, ErrorOfTheLastFrame, HeaderNotReplaced,
        HeaderOfTheFirstFrame, UpperHeaderBitsStay, ContextOfOriginals, ContextExchanged, OneSampleClearsTheOther,
        NoSamplesClearTheContext, NoSamplesClearTheHeader, RoomOneLess, RoomOneMore, RoomOfWholeFrames, BytesAtRefusal,
        ContextAtRefusal, SizeAtRefusal,
    ]
};

impl Wrong {
    /// Puts the error into an answer whose first bytes, so many, are written; `short` says that it should have been refused.
    pub fn spoil(self, answer: &mut Encoded, call: &Call, short: bool, written: usize) {
        let (samples, context) = (call.samples, &mut answer.context);
        match self {
            Wrong::ByteBeyond if written < answer.output.len() => answer.output[written] = 0,
            Wrong::RestCleared => answer.output[written..].fill(0),
            Wrong::SizeOneMore => answer.size += 1,
            Wrong::SizeOneLess => answer.size = answer.size.saturating_sub(1),
            Wrong::SizeOfWholeFrames => answer.size = samples.len().div_ceil(14) * 8,
            Wrong::ErrorIn32Bits => answer.error &= 0xffff_ffff,
            Wrong::ErrorHeldAt32Bits => answer.error = answer.error.min(0xffff_ffff),
            Wrong::ErrorOfTheLastFrame => answer.error = answer.frames.last().map_or(0, |f| f.error),
            Wrong::HeaderNotReplaced => context.header = call.context.header,
            Wrong::HeaderOfTheFirstFrame => context.header = answer.frames.first().map_or(context.header, |f| f.header.into()),
            Wrong::UpperHeaderBitsStay => context.header |= call.context.header & 0xff80,
            Wrong::ContextOfOriginals => {
                for &sample in samples {
                    (context.last, context.before) = (sample, context.last);
                }
            }
            Wrong::ContextExchanged => (context.last, context.before) = (context.before, context.last),
            Wrong::OneSampleClearsTheOther if samples.len() == 1 => context.before = 0,
            Wrong::NoSamplesClearTheContext if samples.is_empty() => *context = Context { header: 0, last: 0, before: 0 },
            Wrong::NoSamplesClearTheHeader if samples.is_empty() => context.header = 0,
            Wrong::BytesAtRefusal if short => {
                (answer.number, answer.size, answer.error) = (15, 0, 0);
                *context = Context { header: 0, last: 0, before: 0 };
            }
            _ => {}
        }
    }
}
