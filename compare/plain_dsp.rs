//! DSP files in plain Rust, from document 02's request and from nothing of the port: the reader and the writer that the driver `dsp_file`
//! holds the port to, and wrong variants of both, each of which it must notice.

/// The header's values in their sequence: how many of a kind, and the bytes of each. Padding follows.
const TABLE: [(usize, usize); 14] = [
    (1, 4), // sample count
    (1, 4), // nibble count
    (1, 4), // rate
    (1, 2), // loop flag
    (1, 2), // format
    (1, 4), // loop start
    (1, 4), // loop end
    (1, 4), // current address
    (16, 2), // coefficients
    (1, 2), // gain
    (1, 2), // first header
    (2, 2), // two history values
    (1, 2), // the same three for the loop
    (2, 2),
];
pub const PADDING: usize = 22;
pub const HEADER: usize = 96;
pub const VALUES: usize = 31;
/// Where some of the values stand among them.
pub const SAMPLES: usize = 0;
pub const NIBBLES: usize = 1;
pub const FORMAT: usize = 4;
pub const GAIN: usize = 24;

/// A header's values, signed ones by their bits.
pub type Values = [u32; VALUES];

/// What is wrong in a variant.
#[derive(Clone, Copy, Debug, PartialEq)]
pub enum Wrong {
    Nothing,
    LittleEndian,
    PaddingOf21,
    FirstPaddingFree,
    FormatNotTested,
    GainNotTested,
    ShortFirst,
    DataCut,
    HalfTheNibbles,
    SizeIn32Bits,
    WholeFrames,
    NoFrameHeader,
    OddSampleLost,
    HistoriesSwapped,
    LoopFromStart,
    LoopEndsSwapped,
    HeaderOf97,
    RoomOneLess,
    RoomOneMore,
    RoomWraps,
    ByteBeyond,
    RestCleared,
    PaddingStays,
    HeaderAtRefusal,
    ValuesAtRefusal,
    DataBeyondRefused,
    SampleCountOfTheData,
}

/// What can be wrong in a reader and in a writer, in a reader, and in a writer.
pub const WRONG_BOTH: [Wrong; 14] = {
    use Wrong::*;
    [
        LittleEndian, FormatNotTested, GainNotTested, ShortFirst, DataCut, HalfTheNibbles, SizeIn32Bits, WholeFrames, NoFrameHeader,
        OddSampleLost, HistoriesSwapped, LoopFromStart, LoopEndsSwapped, DataBeyondRefused,
    ]
};
pub const WRONG_READERS: [Wrong; 5] = {
    use Wrong::*;
    [PaddingOf21, FirstPaddingFree, HeaderOf97, ValuesAtRefusal, SampleCountOfTheData]
};
pub const WRONG_WRITERS: [Wrong; 7] = {
    use Wrong::*;
    [RoomOneLess, RoomOneMore, RoomWraps, ByteBeyond, RestCleared, PaddingStays, HeaderAtRefusal]
};

/// What a reader answers: the number, the values, where the data begins and its length.
pub type Read = (u32, Values, usize, usize);

/// How many samples so many bytes hold: 14 in a frame of 8, whose first byte is its header; of a frame that is cut short two in each byte
/// behind its header.
pub fn held(bytes: u64) -> u64 {
    bytes / 8 * 14 + (bytes % 8).saturating_sub(1) * 2
}

/// How many bytes so many samples take at least.
pub fn least(samples: u32) -> u64 {
    let whole = u64::from(samples) / 14 * 8;
    (whole..whole + 9).find(|&bytes| held(bytes) >= samples.into()).expect("a frame holds 14")
}

/// Whether so many bytes of data hold the samples that a header states.
fn enough(values: &Values, bytes: usize, wrong: Wrong) -> bool {
    let (n, bytes) = (values[SAMPLES], bytes as u64);
    let rest = u64::from(n % 14);
    let whole = u64::from(n / 14) * 8;
    match wrong {
        Wrong::HalfTheNibbles => u64::from(values[NIBBLES]).div_ceil(2) <= bytes,
        Wrong::SizeIn32Bits => u64::from(n.wrapping_mul(8) / 14) <= bytes,
        Wrong::WholeFrames => u64::from(n).div_ceil(14) * 8 <= bytes,
        Wrong::NoFrameHeader => whole + rest.div_ceil(2) <= bytes,
        Wrong::OddSampleLost => whole + if rest > 0 { 1 + rest / 2 } else { 0 } <= bytes,
        Wrong::DataBeyondRefused => bytes == least(n),
        _ => held(bytes) >= n.into(),
    }
}

/// A number of some bytes, the highest first.
fn number(bytes: &[u8], wrong: Wrong) -> u32 {
    let fold = |v: u32, b: &u8| v << 8 | u32::from(*b);
    if wrong == Wrong::LittleEndian { bytes.iter().rev().fold(0, fold) } else { bytes.iter().fold(0, fold) }
}

/// The bytes of each value.
pub fn widths() -> impl Iterator<Item = usize> {
    TABLE.into_iter().flat_map(|(count, width)| std::iter::repeat_n(width, count))
}

/// Values that a variant exchanges.
fn exchanged(mut v: Values, wrong: Wrong) -> Values {
    match wrong {
        Wrong::HistoriesSwapped => v.swap(GAIN + 2, GAIN + 3),
        Wrong::LoopFromStart => v.copy_within(GAIN + 1..GAIN + 4, GAIN + 4),
        Wrong::LoopEndsSwapped => v.swap(FORMAT + 1, FORMAT + 2),
        _ => {}
    }
    v
}

/// The values that a header of 96 bytes has.
pub fn values(file: &[u8], wrong: Wrong) -> Values {
    let mut at = 0;
    let mut next = widths().map(|width| {
        at += width;
        number(&file[at - width..at], wrong)
    });
    exchanged(std::array::from_fn(|_| next.next().expect("so many values")), wrong)
}

/// The 96 bytes of a header; 22 zeros at its end.
pub fn header(values: &Values, wrong: Wrong) -> Vec<u8> {
    let mut bytes = vec![];
    for (value, width) in exchanged(*values, wrong).iter().zip(widths()) {
        let all = if wrong == Wrong::LittleEndian { value.swap_bytes() >> (8 * (4 - width)) } else { *value };
        bytes.extend(&all.to_be_bytes()[4 - width..]);
    }
    bytes.extend([0; PADDING]);
    bytes
}

/// A reader.
pub fn read(file: &[u8], wrong: Wrong) -> Read {
    let none = |number| (number, [0; VALUES], 0, 0);
    if file.len() < HEADER || wrong == Wrong::HeaderOf97 && file.len() == HEADER {
        return none(11);
    }
    let v = values(file, wrong);
    let data = file.len() - HEADER;
    let short = !enough(&v, data, wrong);
    let padding = match wrong {
        Wrong::PaddingOf21 => &file[HEADER - PADDING..HEADER - 1],
        Wrong::FirstPaddingFree => &file[HEADER - PADDING + 1..HEADER],
        _ => &file[HEADER - PADDING..HEADER],
    };
    let format = v[FORMAT] != 0 && wrong != Wrong::FormatNotTested;
    let gain = v[GAIN] != 0 && wrong != Wrong::GainNotTested;
    let refused = match (format || gain || padding.iter().any(|&b| b != 0), short) {
        (_, true) if wrong == Wrong::ShortFirst => 12,
        (true, _) => 11,
        (_, true) => 12,
        _ => {
            let mut v = v;
            if wrong == Wrong::SampleCountOfTheData {
                v[SAMPLES] = held(data as u64) as u32;
            }
            return (0, v, HEADER, if wrong == Wrong::DataCut { least(v[SAMPLES]) as usize } else { data });
        }
    };
    if wrong == Wrong::ValuesAtRefusal { (refused, v, 0, 0) } else { none(refused) }
}

/// What a writer answers, by the lengths alone: the number and the bytes written.
pub fn answer(values: &Values, data: usize, output: usize, wrong: Wrong) -> (u32, usize) {
    let format = values[FORMAT] != 0 && wrong != Wrong::FormatNotTested;
    let gain = values[GAIN] != 0 && wrong != Wrong::GainNotTested;
    let written = match wrong {
        Wrong::DataCut => least(values[SAMPLES]).min(data as u64) as usize,
        _ => data,
    };
    let room = match wrong {
        Wrong::RoomOneLess => output + 1 >= HEADER && data <= output + 1 - HEADER,
        Wrong::RoomOneMore => output > HEADER && data < output - HEADER,
        Wrong::RoomWraps => HEADER.wrapping_add(data) <= output,
        _ => output >= HEADER && data <= output - HEADER,
    };
    match (format || gain, enough(values, data, wrong) && room) {
        (true, false) if wrong == Wrong::ShortFirst => (12, 0),
        (true, _) => (11, 0),
        (_, false) => (12, 0),
        _ => (0, HEADER.wrapping_add(written)),
    }
}

/// A writer: the answer, and what the output becomes.
pub fn write(values: &Values, data: &[u8], output: &[u8], wrong: Wrong) -> (u32, usize, Vec<u8>) {
    let (number, size) = answer(values, data.len(), output.len(), wrong);
    let mut after = output.to_vec();
    let mut bytes = header(values, wrong);
    if wrong == Wrong::PaddingStays && output.len() >= HEADER {
        bytes[HEADER - PADDING..].copy_from_slice(&output[HEADER - PADDING..HEADER]);
    }
    if number == 0 {
        bytes.extend(&data[..size.saturating_sub(HEADER).min(data.len())]);
    }
    let fits = bytes.len().min(after.len());
    if number == 0 || wrong == Wrong::HeaderAtRefusal {
        after[..fits].copy_from_slice(&bytes[..fits]);
    }
    if number == 0 && wrong == Wrong::ByteBeyond && fits < after.len() {
        after[fits] = 0;
    }
    if number == 0 && wrong == Wrong::RestCleared {
        after[fits..].fill(0);
    }
    (number, size, after)
}
