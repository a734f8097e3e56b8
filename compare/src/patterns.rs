//! The arguments' patterns: both sides of every cut, every exponent, whole and half numbers, what is
//! special, and random patterns.

use crate::cuts::{
    EXP_BOUNDS, GMHALF, HIGH_WORDS, LOG_REDUCTION, LOG_WORDS, SINGLE_CUTS, TGAMMAF_CUTS,
};
use crate::leaves::Second;
use crate::random::Random;
use std::f64::consts::FRAC_PI_4;

#[derive(Clone, Copy, Debug, PartialEq)]
pub enum Width {
    Double,
    Single,
}

/// Where exp.rs goes over from one multiple of ln 2 to the next: the size nearest to (k + 1/2) ln 2.
fn between_multiples(k: u32) -> f64 {
    (f64::from(k) + 0.5) * std::f64::consts::LN_2
}

pub fn power_of_two(k: i32) -> f64 {
    f64::from_bits(((1023 + k) as u64) << 52)
}

impl Width {
    fn mantissa_bits(self) -> u32 {
        match self {
            Width::Double => 52,
            Width::Single => 23,
        }
    }

    pub fn sign_bit(self) -> u64 {
        match self {
            Width::Double => 1 << 63,
            Width::Single => 1 << 31,
        }
    }

    fn infinity(self) -> u64 {
        match self {
            Width::Double => f64::INFINITY.to_bits(),
            Width::Single => u64::from(f32::INFINITY.to_bits()),
        }
    }

    /// The pattern of the float nearest to x.
    fn of(self, x: f64) -> u64 {
        match self {
            Width::Double => x.to_bits(),
            Width::Single => u64::from((x as f32).to_bits()),
        }
    }

    /// Where the functions, floor, the whole part, narrowing, exp and log change their course, and the
    /// end of the kernels of sine and cosine. Behind a high word stands its successor too, for the
    /// tests that take the word itself in.
    pub fn cuts(self) -> Vec<u64> {
        let mut cuts: Vec<u64> = match self {
            Width::Double => HIGH_WORDS
                .iter()
                .chain(&LOG_WORDS)
                .flat_map(|&w| [u64::from(w) << 32, u64::from(w + 1) << 32])
                .chain([GMHALF, FRAC_PI_4].map(|x| self.of(x)))
                .chain(EXP_BOUNDS.map(|x| self.of(x)))
                .collect(),
            Width::Single => SINGLE_CUTS
                .iter()
                .flat_map(|&w| [u64::from(w), u64::from(w) + 1])
                .collect(),
        };
        let powers = [0, 23, 31, 52, 63, 64, -126, -149, -150];
        cuts.extend(powers.map(|k| self.of(power_of_two(k))));
        if self == Width::Double {
            cuts.push(self.of(power_of_two(128)));
            // halfway from the greatest f32 to 2^128, and from 0 and each of the first f32s on
            cuts.push(halfway(0x7f7f_ffff));
            cuts.extend((0..4).map(halfway));
            cuts.extend([0x7f_fffe, 0x7f_ffff, 0x80_0000, 0x3f80_0000].map(halfway));
        }
        cuts
    }

    /// Where tgammaf changes, which tests nothing itself.
    pub fn gamma_cuts(self) -> Vec<u64> {
        match self {
            Width::Double => Vec::new(),
            Width::Single => TGAMMAF_CUTS.map(u64::from).to_vec(),
        }
    }

    /// Zero, infinity, the smallest and greatest numbers of a kind, and NaNs of several payloads.
    pub fn specials(self) -> Vec<u64> {
        let inf = self.infinity();
        let quiet = 1 << (self.mantissa_bits() - 1);
        let normal = 1 << self.mantissa_bits();
        let nans = [1, 2, quiet - 1, quiet, quiet + 1, normal - 1];
        let mut specials = vec![0, 1, 2, 3, normal / 2, normal - 1, normal, inf - 1, inf];
        specials.extend(nans.map(|payload| inf + payload));
        self.with_both_signs(specials)
    }

    /// The first and the last whole number of every size from 1 on that has fractions, and a half behind
    /// each.
    pub fn halves(self) -> Vec<u64> {
        let sizes = (0..self.mantissa_bits() as i32)
            .flat_map(|k| [power_of_two(k), power_of_two(k + 1) - 1.0])
            .flat_map(|x| [self.of(x), self.of(x + 0.5)]);
        self.with_both_signs(sizes.collect())
    }

    fn with_both_signs(self, sizes: Vec<u64>) -> Vec<u64> {
        sizes
            .iter()
            .flat_map(|&n| [n, n + self.sign_bit()])
            .collect()
    }

    /// Each centre and two neighbours to each side, with both signs, each pattern once.
    pub fn around(self, centres: &[u64]) -> Vec<u64> {
        let mut sizes: Vec<u64> = centres
            .iter()
            .flat_map(|&n| n.saturating_sub(2)..=n + 2)
            .filter(|&n| n < self.sign_bit())
            .collect();
        sizes.sort_unstable();
        sizes.dedup();
        self.with_both_signs(sizes)
    }
}

/// The f64 halfway between a positive f32, by its pattern, and the next greater one.
fn halfway(n: u32) -> u64 {
    let exponent = (n >> 23).max(1) as i32;
    (f64::from(f32::from_bits(n)) + power_of_two(exponent - 151)).to_bits()
}

/// Every exponent with several mantissas.
fn exponents(width: Width) -> Vec<u64> {
    let step = 1u64 << width.mantissa_bits();
    (0..=width.infinity() / step)
        .flat_map(|e| [0, step / 3, step / 2].map(|m| e * step + m))
        .collect()
}

/// Whole numbers, halves and quarters: all up to 200, then near the powers of 2 and of 10.
fn whole_and_half(width: Width) -> Vec<u64> {
    let near = (0..=800).map(|k| f64::from(k) / 4.0);
    let powers = (7..64)
        .map(power_of_two)
        .chain((2..20).map(|k| 10f64.powi(k)));
    let far = powers.flat_map(|p| [-1.0, -0.5, 0.0, 0.5, 1.0].map(|d| p + d));
    near.chain(far).map(|x| width.of(x)).collect()
}

/// Squares of whole numbers of up to 26 digits, which f64 holds.
fn squares() -> Vec<u64> {
    let mut random = Random::at(1, 70);
    let any = std::iter::repeat_with(|| random.next() >> (38 + random.below(26)));
    (1..200)
        .chain((1 << 26) - 200..1 << 26)
        .chain(any.take(400))
        .map(|root| ((root * root) as f64).to_bits())
        .collect()
}

/// The f64s whose roots lie nearest to the middle of two f64s. With q of 53 digits the middle is
/// q + 1/2, and q^2 + q - d, where it is a multiple of 2^53, has its root next to that for a small d.
fn halfway_roots() -> Vec<u64> {
    let mut random = Random::at(2, 70);
    let mut found = Vec::new();
    for d in (-400..=400).step_by(2) {
        for lowest in [0, 1] {
            let value = |q: i128| q * q + q - d;
            // one digit after the other: another digit of q changes just that digit of the value, and those above
            let q = (1..53).fold(lowest, |q, k| q | (value(q) >> k & 1) << k);
            if q >> 52 == 1 {
                let digits = (value(q) >> 52) as u64;
                let is_long = digits >> 53;
                let exponent = 2 * random.below(1022) + 1 + is_long;
                found.push((exponent << 52) + (digits >> is_long) - (1 << 52));
            }
        }
    }
    found
}

/// For each exponent of f32, f64s halfway between two f32s.
fn halfway_points() -> Vec<u64> {
    (0..255u32)
        .flat_map(|e| [0, 1, 0x2a_aaaa, 0x7f_fffe, 0x7f_ffff].map(|m| halfway((e << 23) + m)))
        .collect()
}

/// For each exponent of f64 and each subnormal one, where log's reduction goes to the next exponent.
fn log_reductions() -> Vec<u64> {
    let mantissa = u64::from(LOG_REDUCTION % 0x10_0000) << 32;
    let subnormals = (1..52).map(|k| (mantissa + (1 << 52)) >> k);
    (1..2047)
        .map(|e| (e << 52) + mantissa)
        .chain(subnormals)
        .collect()
}

/// The patterns of a width: those that are asked whatever the seed, and random ones.
pub struct Patterns {
    width: Width,
    cuts: Vec<u64>,
    pub systematic: Vec<u64>,
}

impl Patterns {
    pub fn new(width: Width) -> Patterns {
        let cuts = width.cuts();
        let mut centres = cuts.clone();
        centres.extend(width.gamma_cuts());
        centres.extend(exponents(width));
        centres.extend(whole_and_half(width));
        if width == Width::Double {
            centres.extend(halfway_points());
            centres.extend((0..1076).map(|k| width.of(between_multiples(k))));
            centres.extend(log_reductions());
            centres.extend(squares());
            centres.extend(halfway_roots());
        }
        let mut systematic = width.around(&centres);
        systematic.extend(width.specials());
        systematic.sort_unstable();
        systematic.dedup();
        Patterns {
            width,
            cuts,
            systematic,
        }
    }

    /// The argument b beside a. A number is any, or in half of the cases, as a tail of a is, up to 2^70
    /// times smaller than a.
    pub fn second(&self, second: Second, a: u64, random: &mut Random) -> u64 {
        match second {
            Second::Nothing | Second::Power | Second::Beside => 0,
            Second::Word => random.word(),
            Second::Exponent => random.exponent(),
            Second::Double if random.below(2) == 0 => self.random(random),
            Second::Double => {
                let mantissa = random.next() % (1 << 52);
                let exponent = (a >> 52) % 2048;
                let lower = exponent.saturating_sub(random.below(70));
                (random.below(2) << 63) + (lower << 52) + mantissa
            }
        }
    }

    /// A random pattern: three in eight of any bits, the others where the functions change.
    pub fn random(&self, random: &mut Random) -> u64 {
        let sign_bit = self.width.sign_bit();
        let any = random.next() & (sign_bit | (sign_bit - 1));
        let sign = any & sign_bit;
        let size = any - sign;
        match random.below(8) {
            0..=2 => any,
            // sizes up to 32, evenly
            3 => {
                let x = (random.next() >> 11) as f64 / power_of_two(48);
                sign + self.width.of(x)
            }
            // 2^-64 to 2^64
            4 => {
                let step = 1u64 << self.width.mantissa_bits();
                let one = self.width.of(1.0) / step;
                sign + (one - 64 + random.below(128)) * step + size % step
            }
            // whole numbers and sixteenths
            5 => {
                let whole = random.next() >> (31 + random.below(33));
                sign + self.width.of(whole as f64 + random.below(16) as f64 / 16.0)
            }
            // near a cut
            6 => {
                let cut = self.cuts[random.below(self.cuts.len() as u64) as usize];
                let away = random.next() >> (40 + random.below(24));
                sign + cut.saturating_sub(away / 2) + away % 2 * away
            }
            // an f32, or halfway to the next one
            _ => {
                let single = (random.next() % 0x7f80_0000) as u32;
                let x = f64::from(f32::from_bits(single));
                match self.width {
                    Width::Double if random.below(2) == 0 => sign + halfway(single),
                    width => sign + width.of(x),
                }
            }
        }
    }
}

#[cfg(test)]
mod tests {
    use super::*;

    #[test]
    fn patterns_have_their_width() {
        let singles = Patterns::new(Width::Single);
        assert!(singles.systematic.iter().all(|&n| n >> 32 == 0));
        let mut random = Random::at(1, 2);
        for _ in 0..100_000 {
            assert!(singles.random(&mut random) >> 32 == 0);
        }
        let doubles = Patterns::new(Width::Double);
        for _ in 0..100_000 {
            doubles.random(&mut random);
        }
    }

    #[test]
    fn both_neighbours_of_every_cut() {
        for width in [Width::Double, Width::Single] {
            let patterns = Patterns::new(width);
            for cut in width.cuts().into_iter().chain(width.gamma_cuts()) {
                for n in cut.saturating_sub(2)..=cut + 2 {
                    assert!(patterns.systematic.binary_search(&n).is_ok());
                    let negative = n + width.sign_bit();
                    assert!(patterns.systematic.binary_search(&negative).is_ok());
                }
            }
        }
    }

    #[test]
    fn halfway_roots_are_halfway() {
        let roots = halfway_roots();
        assert!(roots.len() > 300);
        for n in roots {
            let digits = |n: u64| i128::from(n % (1 << 52) + (1 << 52));
            let square = digits(n) << (53 - (n >> 52) % 2);
            let q = digits(f64::from_bits(n).sqrt().to_bits());
            let off = (q * q + q - square).abs().min((q * q - q - square).abs());
            assert!(off <= 400, "{n:#x}");
        }
    }

    #[test]
    fn halfway_points_round_to_even() {
        for n in [0, 1, 0x7f_ffff, 0x80_0000, 0x3f80_0001, 0x7f7f_fffe] {
            let x = f64::from_bits(halfway(n));
            assert_eq!((x as f32).to_bits(), n + n % 2);
        }
        assert_eq!(f64::from_bits(halfway(0x7f7f_ffff)) as f32, f32::INFINITY);
    }
}
