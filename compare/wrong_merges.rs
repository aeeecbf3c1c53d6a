//! What is wrong in the variants of the plain merge, each of which the driver `merge` must notice.
use crate::plain_merge::{Call, Merged, length};

#[derive(Clone, Copy, Debug, PartialEq)]
pub enum Wrong {
    Nothing,
    // Questions, and their sequence.
    QuestionOneAsked,
    VoicesAloneCounted,
    TwoNotAsked,
    SixteenNotAsked,
    SeventeenNotAsked,
    EighteenNotAsked,
    TwoAfterSixteen,
    TwoAfterSeventeen,
    TwoLast,
    SeventeenBeforeSixteen,
    EighteenBeforeSixteen,
    EighteenBeforeSeventeen,
    RoomOneLess,
    RoomOneMore,
    RoomOfTheTitle,
    LengthIn32Bits,
    // The answer.
    SizeAtRefusal,
    BytesAtRefusal,
    SizeOneMore,
    SizeOfTheOutput,
    ByteBeyond,
    RestCleared,
    // The header, and what stands around the two sections.
    TitlesSizesStay,
    VoicesSizeStays,
    ResourcesSizeStays,
    SizesExchanged,
    TotalRewritten,
    SizesAsTheTitleReads,
    HeaderOfTheClick,
    ShortHeaderIsNone,
    MissingBytesAre255,
    PoolsOfTheClick,
    CutPoolsAreNone,
    VoicesBeforeResources,
    EffectsBehindAllVoices,
    EffectsLeftOut,
    NothingBehindTheVoices,
    // Sections and records.
    ResourcesPastTheEndCut,
    VoicesPastTheEndCut,
    CutRecordTaken,
    UsedIsOne,
    UsedByTheByteBefore,
    TitlesUnusedKept,
    ClicksUnusedKept,
    VoicesOfTheTitle,
    // Channels.
    SixChannels,
    OneChannel,
    EightChannels,
    NoChannelAt0,
    FirstChannelPassedOver,
    IdsNotClamped,
    IdsPastTheLastNotClamped,
    IdsBelow0NotClamped,
    IdsBelow0AreLast,
    IdsAsBytes,
    IdsModulo,
    IdOfTheVoice,
    UnusedNamesToo,
    // Resources.
    ResourcesOfTheTitle,
    ResourcesOfTheClick,
    NeithersOfTheClick,
    NeithersAreZeros,
    OfTheOtherBlock,
    CutResourceIsNone,
    CutResourceOfTheOther,
    GainsAlone,
}

/// All that are wrong.
pub const WRONG: [Wrong; 66] = {
    use Wrong::*;
    [
        QuestionOneAsked, VoicesAloneCounted, TwoNotAsked, SixteenNotAsked, SeventeenNotAsked, EighteenNotAsked, TwoAfterSixteen,
        TwoAfterSeventeen, TwoLast, SeventeenBeforeSixteen, EighteenBeforeSixteen, EighteenBeforeSeventeen, RoomOneLess, RoomOneMore,
        RoomOfTheTitle, LengthIn32Bits, SizeAtRefusal, BytesAtRefusal, SizeOneMore, SizeOfTheOutput, ByteBeyond, RestCleared,
        TitlesSizesStay, VoicesSizeStays, ResourcesSizeStays, SizesExchanged, TotalRewritten, SizesAsTheTitleReads, HeaderOfTheClick,
        ShortHeaderIsNone, MissingBytesAre255, PoolsOfTheClick, CutPoolsAreNone, VoicesBeforeResources, EffectsBehindAllVoices,
        EffectsLeftOut, NothingBehindTheVoices, ResourcesPastTheEndCut, VoicesPastTheEndCut, CutRecordTaken, UsedIsOne,
        UsedByTheByteBefore, TitlesUnusedKept, ClicksUnusedKept, VoicesOfTheTitle, SixChannels, OneChannel, EightChannels, NoChannelAt0,
        FirstChannelPassedOver, IdsNotClamped, IdsPastTheLastNotClamped, IdsBelow0NotClamped, IdsBelow0AreLast, IdsAsBytes, IdsModulo,
        IdOfTheVoice, UnusedNamesToo, ResourcesOfTheTitle, ResourcesOfTheClick, NeithersOfTheClick, NeithersAreZeros, OfTheOtherBlock,
        CutResourceIsNone, CutResourceOfTheOther, GainsAlone,
    ]
};

/// Those of which a voice plays otherwise than in its own block: the sentence on positions must notice them by itself.
pub const HEARD: [Wrong; 11] = {
    use Wrong::*;
    [
        TitlesSizesStay, VoicesSizeStays, ResourcesSizeStays, SizesExchanged, SizesAsTheTitleReads, VoicesBeforeResources, VoicesOfTheTitle,
        VoicesPastTheEndCut, CutRecordTaken, UsedIsOne, UsedByTheByteBefore,
    ]
};

impl Wrong {
    /// Puts the questions that were answered "no" into the wrong sequence, or leaves one out.
    pub fn sequence(self, reasons: &mut Vec<u32>) {
        let asked: &[u32] = match self {
            Wrong::TwoNotAsked => &[16, 17, 18],
            Wrong::SixteenNotAsked => &[2, 17, 18],
            Wrong::SeventeenNotAsked => &[2, 16, 18],
            Wrong::EighteenNotAsked => &[2, 16, 17],
            Wrong::TwoAfterSixteen => &[16, 2, 17, 18],
            Wrong::TwoAfterSeventeen => &[17, 2, 16, 18],
            Wrong::TwoLast => &[16, 17, 18, 2],
            Wrong::SeventeenBeforeSixteen => &[2, 17, 16, 18],
            Wrong::EighteenBeforeSixteen => &[2, 18, 16, 17],
            Wrong::EighteenBeforeSeventeen => &[2, 16, 18, 17],
            _ => return,
        };
        reasons.retain(|number| asked.contains(number));
        reasons.sort_by_key(|number| asked.iter().position(|a| a == number));
    }

    /// Puts the error into an answer.
    pub fn spoil(self, answer: &mut Merged, call: &Call) {
        let (refused, due) = (answer.number != 0, length(call, Wrong::Nothing));
        match self {
            Wrong::SizeAtRefusal if refused => answer.size = due as usize,
            Wrong::BytesAtRefusal if refused => answer.output.iter_mut().take(0x40).for_each(|b| *b = 0),
            _ if refused => {}
            Wrong::SizeOneMore => answer.size += 1,
            Wrong::SizeOfTheOutput => answer.size = answer.output.len(),
            Wrong::ByteBeyond => answer.output.iter_mut().skip(answer.size).take(1).for_each(|b| *b = 0),
            Wrong::RestCleared => answer.output.iter_mut().skip(answer.size).for_each(|b| *b = 0),
            _ => {}
        }
    }
}
