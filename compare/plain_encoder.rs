//! An ADPCM encoder in plain Rust, from documents 01 and 02 and from nothing of the port: every nibble of every header is tried. The driver
//! `encode` holds the port to it, and to wrong variants (wrong_encoders.rs), each of which it must notice.
use crate::wrong_encoders::Wrong;

pub const FRAME: usize = 14;
pub const HEADERS: usize = 128;

/// The last header, the last sample and the one before it.
#[derive(Clone, Copy, Debug, PartialEq)]
pub struct Context {
    pub header: u16,
    pub last: i16,
    pub before: i16,
}

/// A frame as it is encoded.
pub struct Frame {
    pub header: u8,
    /// The samples before the frame, the later first.
    pub from: (i64, i64),
    /// The signed nibbles, what they decode to, and the sum of squared differences.
    pub nibbles: Vec<i64>,
    pub made: Vec<i64>,
    pub error: u64,
    /// The sum of squared differences with each header.
    pub sums: [u64; HEADERS],
}

/// What an encode answers, what its output becomes, and its frames.
pub struct Encoded {
    pub number: u32,
    pub size: usize,
    pub context: Context,
    pub error: u64,
    pub output: Vec<u8>,
    pub frames: Vec<Frame>,
}

/// What a call is given.
pub struct Call<'a> {
    pub samples: &'a [i16],
    pub coefficients: &'a [i16],
    pub context: Context,
    pub output: &'a [u8],
}

/// The bytes of so many samples: a frame of 14 has 8; of the rest, if there is any, the header has one, and each two samples or a last one.
pub fn size(samples: usize) -> usize {
    let rest = samples % FRAME;
    samples / FRAME * 8 + if rest > 0 { 1 + rest.div_ceil(2) } else { 0 }
}

/// The first sixteen coefficients; those that are missing are 0.
pub fn sixteen(coefficients: &[i16], wrong: Wrong) -> [i16; 16] {
    let given = match wrong {
        Wrong::LastSixteen => &coefficients[coefficients.len().saturating_sub(16)..],
        Wrong::HalfAPairIsNone if coefficients.len() < 16 => &coefficients[..coefficients.len() & !1],
        _ => coefficients,
    };
    let missing = if wrong == Wrong::LastCoefficientAgain { given.last().copied().unwrap_or(0) } else { 0 };
    std::array::from_fn(|k| given.get(k).copied().unwrap_or(missing))
}

/// The pair of a header's predictor.
fn pair(header: u8, coefficients: &[i16; 16], wrong: Wrong) -> (i64, i64) {
    let predictor = usize::from(header >> 4) & if wrong == Wrong::PredictorMaskedWith3 { 3 } else { 7 };
    let (c, d) = (coefficients[2 * predictor].into(), coefficients[2 * predictor + 1].into());
    if wrong == Wrong::PairExchanged { (d, c) } else { (c, d) }
}

/// What a nibble decodes to before the clamp.
pub fn unclamped(nibble: i64, header: u8, (c, d): (i64, i64), from: (i64, i64), wrong: Wrong) -> i64 {
    let rounding = if wrong == Wrong::NoRounding { 0 } else { 1024 };
    let all = nibble * (1 << (11 + (header & 15))) + c * from.0 + d * from.1 + rounding;
    if wrong == Wrong::TowardZero { all / 2048 } else { all.div_euclid(2048) }
}

/// And after it.
fn clamped(x: i64, wrong: Wrong) -> i64 {
    match wrong {
        Wrong::ClampOf17Bits => x.clamp(-65536, 65535),
        Wrong::ClampEven => x.clamp(-32767, 32767),
        _ => x.clamp(-32768, 32767),
    }
}

/// What each nibble decodes to, -8 first.
pub fn choices(header: u8, coefficients: &[i16; 16], from: (i64, i64)) -> [i64; 16] {
    let pair = pair(header, coefficients, Wrong::Nothing);
    std::array::from_fn(|k| unclamped(k as i64 - 8, header, pair, from, Wrong::Nothing).clamp(-32768, 32767))
}

/// The nibble whose decoded sample is nearest, the lowest of several, and this sample.
#[inline(always)]
fn nearest(sample: i64, header: u8, pair: (i64, i64), from: (i64, i64), wrong: Wrong) -> (i64, i64) {
    let (mut least, mut kept) = (i64::MAX, (0, 0));
    let nibbles = match wrong {
        Wrong::NoNibbleMinus8 => -7..8,
        Wrong::NoNibble7 => -8..7,
        _ => -8..8,
    };
    for nibble in nibbles {
        let x = unclamped(nibble, header, pair, from, wrong);
        let made = clamped(x, wrong);
        let away = (if wrong == Wrong::NearestBeforeTheClamp { x } else { made } - sample).abs();
        let taken = match wrong {
            Wrong::UpperNibble => away <= least,
            Wrong::NibbleNearerZero => away < least || away == least && nibble <= 0,
            _ => away < least,
        };
        if taken {
            (least, kept) = (away, (nibble, made));
        }
    }
    kept
}

/// A frame with one header: its nibbles, what they decode to, and the sum that headers are chosen by.
struct Trial {
    nibbles: [i64; FRAME],
    made: [i64; FRAME],
    sum: u64,
}

fn attempt(samples: &[i16], header: u8, coefficients: &[i16; 16], mut from: (i64, i64), wrong: Wrong) -> Trial {
    let pair = pair(header, coefficients, wrong);
    let mut trial = Trial { nibbles: [0; FRAME], made: [0; FRAME], sum: 0 };
    for (k, &sample) in samples.iter().enumerate() {
        let sample = i64::from(sample);
        let (nibble, made) = nearest(sample, header, pair, from, wrong);
        (trial.nibbles[k], trial.made[k]) = (nibble, made);
        let away = made.abs_diff(sample);
        trial.sum = match wrong {
            Wrong::ChosenByAbsoluteSum => trial.sum + away,
            Wrong::ChosenByGreatest => trial.sum.max(away * away),
            Wrong::ChosenByLastSample => away * away,
            _ => trial.sum + away * away,
        };
        from = match wrong {
            Wrong::OriginalsAsHistory => (sample, from.0),
            Wrong::SecondHistoryKept => (made, from.1),
            _ => (made, from.0),
        };
    }
    trial
}

/// The headers in the sequence in which they are tried; of equal sums the first is kept.
fn headers(carried: u16, wrong: Wrong) -> Vec<u8> {
    let all = 0..HEADERS as u8;
    match wrong {
        Wrong::LastHeader => all.rev().collect(),
        Wrong::CarriedHeaderFirst => [(carried % 128) as u8].into_iter().chain(all).collect(),
        Wrong::ScalesFirst => all.map(|k| k % 8 * 16 + k / 8).collect(),
        Wrong::Headers127 => (0..127).collect(),
        Wrong::NoHeader0 => (1..128).collect(),
        Wrong::ScalesTo12 => all.filter(|b| b & 15 <= 12).collect(),
        Wrong::SevenPredictors => (0..112).collect(),
        Wrong::CarriedHeaderAlways => vec![(carried % 128) as u8],
        _ => all.collect(),
    }
}

/// A frame with the header whose sum is the least, the lowest of several.
fn frame(samples: &[i16], coefficients: &[i16; 16], carried: u16, from: (i64, i64), wrong: Wrong) -> Frame {
    let (mut sums, mut kept) = ([u64::MAX; HEADERS], None::<(u8, Trial)>);
    for header in headers(carried, wrong) {
        let trial = attempt(samples, header, coefficients, from, wrong);
        sums[usize::from(header)] = trial.sum;
        if kept.as_ref().is_none_or(|(_, k)| trial.sum < k.sum) {
            kept = Some((header, trial));
        }
    }
    let (header, trial) = kept.expect("a header");
    let (nibbles, made) = (trial.nibbles[..samples.len()].to_vec(), trial.made[..samples.len()].to_vec());
    let away = made.iter().zip(samples).map(|(m, &s)| m.abs_diff(s.into()));
    let error = away.map(|a| if wrong == Wrong::ErrorNotSquared { a } else { a * a }).sum();
    Frame { header, from, nibbles, made, error, sums }
}

/// A frame's bytes: its header, and two nibbles in a byte, the first in the high half.
fn bytes(frame: &Frame, wrong: Wrong) -> Vec<u8> {
    let four = |nibble: i64| (if wrong == Wrong::NibblesFromMinus8 { nibble + 8 } else { nibble } & 15) as u8;
    let unused = |first: i64| match wrong {
        Wrong::UnusedNibbleAgain => four(first),
        Wrong::UnusedNibble15 => 15,
        _ => 0,
    };
    let mut bytes = vec![if wrong == Wrong::HeaderHalvesExchanged { frame.header.rotate_left(4) } else { frame.header }];
    for two in frame.nibbles.chunks(2) {
        let (first, second) = (four(two[0]), two.get(1).map_or(unused(two[0]), |&n| four(n)));
        bytes.push(if wrong == Wrong::LowNibbleFirst { second << 4 | first } else { first << 4 | second });
    }
    if wrong == Wrong::ShortFrameFilled {
        bytes.resize(8, 0);
    }
    bytes
}

/// An encode.
pub fn encode(call: &Call, wrong: Wrong) -> Encoded {
    let (samples, given) = (call.samples, call.context);
    let (needed, room) = (size(samples.len()), call.output.len());
    let short = match wrong {
        Wrong::RoomOneLess => room + 1 < needed,
        Wrong::RoomOneMore => room <= needed && needed > 0,
        Wrong::RoomOfWholeFrames => room < samples.len().div_ceil(FRAME) * 8,
        _ => room < needed,
    };
    if short && wrong != Wrong::BytesAtRefusal {
        let context = if wrong == Wrong::ContextAtRefusal { given } else { Context { header: 0, last: 0, before: 0 } };
        let size = if wrong == Wrong::SizeAtRefusal { needed } else { 0 };
        return Encoded { number: 15, size, context, error: 0, output: call.output.to_vec(), frames: vec![] };
    }
    let coefficients = sixteen(call.coefficients, wrong);
    let (mut header, mut from) = (given.header, (i64::from(given.last), i64::from(given.before)));
    let (mut frames, mut written) = (vec![], vec![]);
    for part in samples.chunks(if wrong == Wrong::FramesOf13 { 13 } else { FRAME }) {
        let frame = frame(part, &coefficients, header, from, wrong);
        written.extend(bytes(&frame, wrong));
        header = frame.header.into();
        for (&made, &sample) in frame.made.iter().zip(part) {
            from = (if wrong == Wrong::OriginalsBetweenFrames { sample.into() } else { made }, from.0);
        }
        match wrong {
            Wrong::HistoriesExchanged => from = (from.1, from.0),
            Wrong::EachFrameFromTheContext => from = (given.last.into(), given.before.into()),
            Wrong::EachFrameFromZero => from = (0, 0),
            _ => {}
        }
        frames.push(frame);
    }
    let mut answer = Encoded {
        number: 0,
        size: written.len(),
        context: Context { header, last: from.0 as i16, before: from.1 as i16 },
        error: frames.iter().fold(0, |sum: u64, f| sum.saturating_add(f.error)),
        output: call.output.to_vec(),
        frames,
    };
    let fits = written.len().min(room);
    answer.output[..fits].copy_from_slice(&written[..fits]);
    if wrong != Wrong::Nothing {
        wrong.spoil(&mut answer, call, short, fits);
    }
    answer
}
