//! Numbers from a seed.

/// The generator splitmix64.
pub struct Random(u64);

impl Random {
    /// A generator for each place, so that what stands at one place needs nothing of the others.
    pub fn at(seed: u64, place: u64) -> Random {
        let first = Random(seed).next();
        Random(first ^ place.wrapping_mul(0xd1b5_4a32_d192_ed03))
    }

    pub fn next(&mut self) -> u64 {
        self.0 = self.0.wrapping_add(0x9e37_79b9_7f4a_7c15);
        let mut z = self.0;
        z = (z ^ (z >> 30)).wrapping_mul(0xbf58_476d_1ce4_e5b9);
        z = (z ^ (z >> 27)).wrapping_mul(0x94d0_49bb_1331_11eb);
        z ^ (z >> 31)
    }

    pub fn below(&mut self, n: u64) -> u64 {
        self.next() % n
    }

    /// A word to set: half of them one at which the number's class changes.
    pub fn word(&mut self) -> u64 {
        const WORDS: [u64; 8] = [
            0,
            1,
            0x10_0000,
            0x7fef_ffff,
            0x7ff0_0000,
            0x7ff8_0000,
            0x8000_0000,
            0xfff0_0000,
        ];
        match self.below(2) {
            0 => self.next() >> 32,
            _ => WORDS[self.below(8) as usize],
        }
    }

    /// An i32 to scale by, its 32 bits: half of them where scalbn or scalbnf changes its course, with both
    /// neighbours, most others where an answer is neither 0 nor infinite.
    pub fn exponent(&mut self) -> u64 {
        const CUTS: [i32; 14] = [
            1023,
            2046,
            3069,
            -1022,
            -1991,
            -2960,
            127,
            254,
            381,
            -126,
            -228,
            -330,
            i32::MAX - 1,
            i32::MIN + 1,
        ];
        let n = match self.below(8) {
            0..=3 => CUTS[self.below(14) as usize] - 1 + self.below(3) as i32,
            4..=6 => self.below(6400) as i32 - 3200,
            _ => self.next() as i32,
        };
        u64::from(n as u32)
    }
}
