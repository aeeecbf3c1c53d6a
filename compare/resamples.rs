//! Resamples by seed, of 3 to 42 inputs, and what each must give.
use crate::FILL;
use crate::random::{Random, bits};
use oracle::dsp;

unsafe extern "C" {
    fn probe_resample(
        input: *const f32, input_len: usize, out: *mut f32, out_len: usize, count: u32, ratio: f32, fraction: f32,
    ) -> f32;
    fn probe_needed(fraction: f32, ratio: f32, count: u32) -> u64;
}

pub struct Resample {
    pub input: Vec<f32>,
    pub count: u32,
    room: usize,
    pub ratio: f32,
    pub fraction: f32,
}

/// The samples needed, the next fraction and the output's bits.
#[derive(PartialEq, Debug)]
pub struct Resampled(pub u64, pub u32, pub Vec<u32>);

impl Resample {
    pub fn random(r: &mut Random) -> Resample {
        let len = if r.below(8) == 0 { 3 } else { 3 + r.below(40) as usize };
        let count = r.below(40) as u32;
        let whole = r.below(3) == 0;
        let input = (0..len).map(|_| if whole { r.next() as i16 as f32 } else { r.float() }).collect();
        Resample { input, count, room: (count as u64 + r.below(4)) as usize, ratio: r.float(), fraction: r.float() }
    }

    /// Whether it has three inputs, so that the Rust has no answer.
    pub fn three(&self) -> bool {
        self.input.len() == 3
    }

    /// What it must give: the Rust's needed and next fraction; the Rust's outputs, or of three inputs those by document 02's rule.
    pub fn oracle(&self) -> Resampled {
        let mut out = vec![FILL; self.room];
        let made = &mut out[..self.count as usize];
        let next = dsp::resample(&self.input, made, self.ratio, self.fraction);
        if self.three() {
            rules::dsp::resample(&self.input, made, self.ratio, self.fraction);
        }
        let needed = dsp::needed(self.fraction, self.ratio, self.count as usize);
        Resampled(needed as u64, bits(next), out.iter().map(|&x| bits(x)).collect())
    }

    /// Whether other fourth points than document 02's would give other outputs of three inputs: the third again, and the point with its
    /// rounding elsewhere, third + (third - second).
    pub fn shows(&self) -> [bool; 2] {
        let [first, second, third] = self.input[..] else { return [false; 2] };
        let outputs = |fourth: f32| {
            let mut out = vec![FILL; self.count as usize];
            dsp::resample(&[first, second, third, fourth], &mut out, self.ratio, self.fraction);
            out.into_iter().map(bits).collect::<Vec<u32>>()
        };
        let by_rule = outputs(2.0 * third - second);
        [third, third + (third - second)].map(|fourth| outputs(fourth) != by_rule)
    }

    pub fn port(&self) -> Resampled {
        let mut out = vec![FILL; self.room];
        let next = unsafe {
            probe_resample(
                self.input.as_ptr(), self.input.len(), out.as_mut_ptr(), out.len(), self.count, self.ratio, self.fraction,
            )
        };
        let needed = unsafe { probe_needed(self.fraction, self.ratio, self.count) };
        Resampled(needed, bits(next), out.iter().map(|&x| bits(x)).collect())
    }

    pub fn store(&self, to: &mut Vec<u8>) {
        to.push(2);
        for n in [self.input.len() as u32, self.count, self.room as u32, self.ratio.to_bits(), self.fraction.to_bits()] {
            to.extend(n.to_le_bytes());
        }
        for x in &self.input {
            to.extend(x.to_bits().to_le_bytes());
        }
    }
}
