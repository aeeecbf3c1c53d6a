//! Numbers by seed (splitmix64), and the floats and 16-bit numbers that are worth trying.

pub struct Random(pub u64);

impl Random {
    pub fn next(&mut self) -> u64 {
        self.0 = self.0.wrapping_add(0x9e37_79b9_7f4a_7c15);
        let mut z = self.0;
        z = (z ^ (z >> 30)).wrapping_mul(0xbf58_476d_1ce4_e5b9);
        z = (z ^ (z >> 27)).wrapping_mul(0x94d0_49bb_1331_11eb);
        z ^ (z >> 31)
    }

    /// A number below n.
    pub fn below(&mut self, n: u64) -> u64 {
        self.next() % n
    }

    pub fn bytes(&mut self, n: usize) -> Vec<u8> {
        (0..n).map(|_| self.next() as u8).collect()
    }

    /// A 16-bit number, one time in four an extreme one.
    #[allow(dead_code)]
    pub fn word(&mut self) -> i16 {
        const EXTREMES: [i16; 9] = [i16::MIN, i16::MAX, -32767, 0, 1, -1, 2048, -2048, 16384];
        if self.below(4) == 0 { EXTREMES[self.below(9) as usize] } else { self.next() as i16 }
    }

    /// A float of one of several kinds: special values, whole samples, the unit range, small ratios, any bits.
    pub fn float(&mut self) -> f32 {
        const SPECIAL: [f32; 18] = [
            0.0, -0.0, 1.0, -1.0, 0.5, 16.0, 15.999999, 16.000002, 0.99999994, f32::NAN, f32::INFINITY, f32::NEG_INFINITY, f32::MIN,
            f32::MAX, f32::MIN_POSITIVE, 1.0e-45, 16777216.0, 4294967296.0,
        ];
        match self.below(6) {
            0 => SPECIAL[self.below(18) as usize],
            1 => self.next() as i16 as f32,
            2 => self.below(1 << 24) as f32 / (1 << 24) as f32,
            3 => self.below(1 << 20) as f32 / (1 << 16) as f32,
            4 => self.below(64) as f32 / 4.0,
            _ => f32::from_bits(self.next() as u32),
        }
    }
}

/// The bits of a float, with every NaN counted as one.
pub fn bits(x: f32) -> u32 {
    if x.is_nan() { 0x7fc0_0000 } else { x.to_bits() }
}
