//! What a run of the driver `encode` has tried, and what it has not.
use crate::plain_encoder::{Call, Encoded, FRAME, Frame, HEADERS, choices, sixteen, size};
use crate::wrong_encoders::Wrong;

/// Coefficient slices of 0 to this many are all tried.
pub const COEFFICIENTS: usize = 20;
/// And sample counts of 0 to this many.
pub const SAMPLES: usize = 60;

/// Kinds of call, frame and sample, each of which must be reached.
const KINDS: [&str; 32] = [
    "calls that should succeed",
    "calls refused by 15",
    "refused with an output one byte short",
    "refused without output",
    "calls with just enough output",
    "calls with more output",
    "calls without samples",
    "calls without samples or output",
    "calls of 1,000 samples and more",
    "calls with error 0, of two frames and more",
    "calls with an error of 2^32 and more",
    "calls whose context has a header of 128 and more",
    "calls of silence",
    "calls whose samples are all at the ends of 16 bits",
    "calls with a coefficient at an end of 16 bits",
    "calls whose eight pairs are equal",
    "calls in two parts, the second from the first's context",
    "frames",
    "frames with error 0",
    "frames whose every sample is 65,535 off",
    "frames with an error of 2^32 and more",
    "frames of which several headers have the least sum",
    "frames of which all headers have the least sum",
    "frames of which several headers have the least sum, the one carried among them, and a lower one is kept",
    "frames that keep the header that was carried",
    "frames that keep another",
    "last frames with an unused nibble",
    "samples at the clamp's lower end",
    "samples at the clamp's upper end",
    "samples with a nibble below and one above that are equally far",
    "samples with several nibbles at the clamp's lower end",
    "samples with several nibbles at the clamp's upper end",
];

pub struct Tally {
    kinds: [u64; KINDS.len()],
    /// Calls by their count of samples, and by their count of coefficients.
    samples: [u64; SAMPLES + 1],
    coefficients: [u64; COEFFICIENTS + 1],
    /// Last frames by their count of samples.
    lengths: [u64; FRAME],
    /// Frames by the header that they keep, and samples by 16 × scale + nibble, -8 counted as 0.
    headers: [u64; HEADERS],
    nibbles: [u64; 256],
    pub compared: u64,
    pub differ: u64,
}

impl Tally {
    /// Nothing counted yet.
    pub fn new() -> Tally {
        Tally {
            kinds: [0; KINDS.len()],
            samples: [0; SAMPLES + 1],
            coefficients: [0; COEFFICIENTS + 1],
            lengths: [0; FRAME],
            headers: [0; HEADERS],
            nibbles: [0; 256],
            compared: 0,
            differ: 0,
        }
    }

    /// Counts one of a kind.
    pub fn hit(&mut self, kind: &str) {
        self.hit_if(kind, true);
    }

    fn hit_if(&mut self, kind: &str, is: bool) {
        let k = KINDS.iter().position(|&name| name == kind).unwrap_or_else(|| panic!("no such kind: {kind}"));
        self.kinds[k] += u64::from(is);
    }

    /// Counts a call by what it is given and by what the plain encoder answers.
    pub fn call(&mut self, call: &Call, due: &Encoded) {
        let (samples, room, needed) = (call.samples, call.output.len(), size(call.samples.len()));
        if let Some(count) = self.samples.get_mut(samples.len()) {
            *count += 1;
        }
        if let Some(count) = self.coefficients.get_mut(call.coefficients.len()) {
            *count += 1;
        }
        if due.number != 0 {
            self.hit("calls refused by 15");
            self.hit_if("refused with an output one byte short", room + 1 == needed);
            self.hit_if("refused without output", room == 0);
            return;
        }
        self.hit("calls that should succeed");
        self.hit_if("calls with just enough output", room == needed);
        self.hit_if("calls with more output", room > needed);
        self.hit_if("calls without samples", samples.is_empty());
        self.hit_if("calls without samples or output", samples.is_empty() && room == 0);
        self.hit_if("calls of 1,000 samples and more", samples.len() >= 1000);
        self.hit_if("calls with error 0, of two frames and more", due.error == 0 && samples.len() > FRAME);
        self.hit_if("calls with an error of 2^32 and more", due.error >> 32 != 0);
        self.hit_if("calls whose context has a header of 128 and more", call.context.header >= 128);
        let ends = |x: &i16| [i16::MIN, i16::MAX].contains(x);
        let pairs = sixteen(call.coefficients, Wrong::Nothing);
        self.hit_if("calls of silence", !samples.is_empty() && samples.iter().all(|&s| s == 0));
        self.hit_if("calls whose samples are all at the ends of 16 bits", !samples.is_empty() && samples.iter().all(ends));
        self.hit_if("calls with a coefficient at an end of 16 bits", pairs.iter().any(ends));
        self.hit_if("calls whose eight pairs are equal", pairs.chunks(2).all(|p| p == &pairs[..2]));
        if let Some(last) = due.frames.last() {
            self.lengths[last.made.len() - 1] += 1;
            self.hit_if("last frames with an unused nibble", last.made.len() % 2 == 1);
        }
        let mut carried = usize::from(call.context.header % 128);
        for (frame, part) in due.frames.iter().zip(samples.chunks(FRAME)) {
            self.frame(frame, part, &pairs, carried);
            carried = frame.header.into();
        }
    }

    /// Counts a frame, and its samples, from the context's header or that of the frame before.
    fn frame(&mut self, frame: &Frame, samples: &[i16], pairs: &[i16; 16], carried: usize) {
        let kept = usize::from(frame.header);
        let least = frame.sums.iter().filter(|&&s| s == frame.sums[kept]).count();
        let off = |(m, s): (&i64, &i16)| m.abs_diff((*s).into()) == 65535;
        self.hit("frames");
        self.headers[kept] += 1;
        self.hit_if("frames with error 0", frame.error == 0);
        self.hit_if("frames whose every sample is 65,535 off", frame.made.iter().zip(samples).all(off));
        self.hit_if("frames with an error of 2^32 and more", frame.error >> 32 != 0);
        self.hit_if("frames of which several headers have the least sum", least > 1);
        self.hit_if("frames of which all headers have the least sum", least == HEADERS);
        let tied = kept < carried && frame.sums[carried] == frame.sums[kept];
        self.hit_if("frames of which several headers have the least sum, the one carried among them, and a lower one is kept", tied);
        self.hit_if("frames that keep the header that was carried", kept == carried);
        self.hit_if("frames that keep another", kept != carried);
        let mut from = frame.from;
        for ((&nibble, &made), &sample) in frame.nibbles.iter().zip(&frame.made).zip(samples) {
            let sample = i64::from(sample);
            let equal = choices(frame.header, pairs, from).into_iter().filter(|c| c.abs_diff(sample) == made.abs_diff(sample));
            let (same, all) = (equal.clone().filter(|&c| c == made).count(), equal.count());
            self.nibbles[usize::from(frame.header % 16) * 16 + (nibble + 8) as usize] += 1;
            self.hit_if("samples at the clamp's lower end", made == -32768);
            self.hit_if("samples at the clamp's upper end", made == 32767);
            self.hit_if("samples with a nibble below and one above that are equally far", all > same);
            self.hit_if("samples with several nibbles at the clamp's lower end", same > 1 && made == -32768);
            self.hit_if("samples with several nibbles at the clamp's upper end", same > 1 && made == 32767);
            from = (made, from.0);
        }
    }

    /// Prints the counts, and what should have been reached and never was; whether there is such a thing.
    pub fn print(&self) -> bool {
        let mut never = vec![];
        for (name, count) in KINDS.iter().zip(self.kinds) {
            println!("{name}: {count}");
            if count == 0 {
                never.push(name.to_string());
            }
        }
        let lists: [(&str, &[u64], usize); 5] = [
            ("calls by their count of samples", &self.samples, 0),
            ("calls by their count of coefficients", &self.coefficients, 0),
            ("last frames by their count of samples", &self.lengths, 1),
            ("frames by the header that they keep", &self.headers, 0),
            ("samples by 16 x scale + nibble, -8 counted as 0", &self.nibbles, 0),
        ];
        for (name, counts, first) in lists {
            let (least, last) = (counts.iter().min().expect("counts"), first + counts.len() - 1);
            println!("{name}, {first} to {last}: at least {least} of each");
            let none = counts.iter().enumerate().filter(|&(_, &n)| n == 0);
            never.extend(none.map(|(k, _)| format!("{name}: {}", first + k)));
        }
        for name in &never {
            println!("never reached: {name}");
        }
        !never.is_empty()
    }
}
