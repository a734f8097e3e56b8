//! The pairs of arguments for pow: every pair of a list of patterns at which pow.rs changes its
//! course, and random pairs, many of them such that the power is neither zero nor infinite.

use crate::patterns::{Patterns, Width};
use crate::random::Random;

/// The high words that pow.rs tests in x and y. 0x3ff3_988e and 0x3ffb_b67a are the cuts of the
/// digits j, at the exponent of 1.
const HIGH_WORDS: [u32; 13] = [
    0x0010_0000,
    0x3fe0_0000,
    0x3fef_ffff,
    0x3ff0_0000,
    0x3ff3_988e,
    0x3ffb_b67a,
    0x4000_0000,
    0x4090_0000,
    0x4090_cc00,
    0x41e0_0000,
    0x4340_0000,
    0x43f0_0000,
    0x7ff0_0000,
];

/// Numbers that are special, whole or half, and odd or even up to beyond 2^53.
const NUMBERS: [f64; 22] = [
    0.25,
    1.5,
    2.5,
    3.0,
    4.0,
    5.0,
    10.0,
    63.0,
    64.0,
    1023.0,
    1024.0,
    1074.0,
    1075.0,
    1048575.0,
    2097151.0,
    2097152.5,
    4294967295.0,
    4503599627370495.5,
    4503599627370497.0,
    9007199254740991.0,
    9007199254740994.0,
    18014398509481988.0,
];

pub struct Powers {
    list: Vec<u64>,
    patterns: Patterns,
}

fn between(low: f64, high: f64, random: &mut Random) -> u64 {
    let share = (random.next() >> 11) as f64 / 9007199254740992.0;
    (low + (high - low) * share).to_bits()
}

impl Powers {
    pub fn new() -> Powers {
        let cuts = HIGH_WORDS
            .iter()
            .flat_map(|&w| [u64::from(w) << 32, u64::from(w + 1) << 32]);
        let centres: Vec<u64> = cuts.chain(NUMBERS.map(f64::to_bits)).collect();
        let mut list = Width::Double.around(&centres);
        list.extend(Width::Double.specials());
        list.sort_unstable();
        list.dedup();
        Powers {
            list,
            patterns: Patterns::new(Width::Double),
        }
    }

    /// How many pairs are asked whatever the seed: each pattern of the list with each.
    pub fn systematic(&self) -> u64 {
        (self.list.len() * self.list.len()) as u64
    }

    /// The pair at a place: first the systematic ones, then random ones.
    pub fn pair(&self, place: u64, random: &mut Random) -> (u64, u64) {
        let n = self.list.len() as u64;
        if place < n * n {
            return (
                self.list[(place / n) as usize],
                self.list[(place % n) as usize],
            );
        }
        self.random(random)
    }

    pub fn random(&self, random: &mut Random) -> (u64, u64) {
        let sign = random.next() & 1 << 63;
        let listed = self.list[random.below(self.list.len() as u64) as usize];
        let any = self.patterns.random(random);
        match random.below(8) {
            0 => (any, random.next()),
            1 => (any, self.patterns.random(random)),
            2 => (listed, any),
            3 => (any, listed),
            // where tgamma calls it
            4 => (between(5.5, 190.0, random), between(-92.0, 92.0, random)),
            // log2 of the power from -1100 to 1100
            5 => {
                let x = any & !(1 << 63);
                let log2 = libm::log2(f64::from_bits(x));
                let y = f64::from_bits(between(-1100.0, 1100.0, random)) / log2;
                (x, y.to_bits())
            }
            // the same with a whole y and any sign
            6 => {
                let y = f64::from_bits(between(-1100.0, 1100.0, random)).floor();
                let x = libm::exp2(f64::from_bits(between(-1100.0, 1100.0, random)) / y);
                (x.to_bits() ^ sign, y.to_bits())
            }
            // x close to 1 and a y from 2^20 to 2^70
            _ => {
                let away = random.next() >> (12 + random.below(50));
                let x = (1f64.to_bits() + away / 2) - away % 2 * away / 2;
                let exponent = 1023 + 20 + random.below(50);
                (
                    x ^ sign,
                    ((exponent << 52) + (random.next() >> 12)) ^ (random.next() & 1 << 63),
                )
            }
        }
    }
}

#[cfg(test)]
mod tests {
    use super::*;

    #[test]
    fn every_pair_of_the_list() {
        let powers = Powers::new();
        let mut random = Random::at(1, 2);
        let one = 1f64.to_bits();
        let half = (-0.5f64).to_bits();
        let mut found = false;
        for place in 0..powers.systematic() {
            found |= powers.pair(place, &mut random) == (one, half);
        }
        assert!(found);
    }

    #[test]
    fn many_powers_are_finite() {
        let powers = Powers::new();
        let mut random = Random::at(1, 2);
        let finite = (0..10_000)
            .map(|_| powers.random(&mut random))
            .map(|(x, y)| libm::pow(f64::from_bits(x), f64::from_bits(y)))
            .filter(|p| p.is_finite() && *p != 0.0)
            .count();
        assert!(finite > 4_000);
    }
}
