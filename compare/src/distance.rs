//! How far two floats of one width lie apart: the steps from one to the other along the numbers of that
//! width. It is worked out from the two values, by how far apart the numbers of a binade lie, and looks at no
//! bit of theirs, where the port counts by patterns.

use crate::patterns::{power_of_two, Patterns, Width};
use crate::random::Random;

/// The code of a NaN's distance, which is none.
const NO_DISTANCE: u64 = 4;

/// 2^k x, where that is a number of f64: in two steps, since 2^k itself need not be one.
fn scaled(x: f64, k: i32) -> f64 {
    x * power_of_two(k / 2) * power_of_two(k - k / 2)
}

impl Width {
    /// The binary digits of a normal number, and the exponents of the least of them and of the greatest.
    fn shape(self) -> (i32, i32, i32) {
        match self {
            Width::Double => (53, -1022, 1023),
            Width::Single => (24, -126, 127),
        }
    }

    /// The float of a pattern; an f64 has every value of an f32.
    fn value(self, pattern: u64) -> f64 {
        match self {
            Width::Double => f64::from_bits(pattern),
            Width::Single => f64::from(f32::from_bits(pattern as u32)),
        }
    }

    fn greatest(self) -> f64 {
        match self {
            Width::Double => f64::MAX,
            Width::Single => f64::from(f32::MAX),
        }
    }

    /// The exponent of the binade of a finite size; that of the subnormal numbers is the least.
    fn binade(self, size: f64) -> i32 {
        let (_, mut low, greatest) = self.shape();
        let mut high = greatest + 1;
        while high - low > 1 {
            let middle = low + (high - low) / 2;
            if size < scaled(1.0, middle) {
                high = middle;
            } else {
                low = middle;
            }
        }
        low
    }

    /// The steps from zero up to a size. The numbers of the binade of 2^e, and those below the least binade,
    /// are multiples of 2^(e + 1 - digits), and every binade has 2^(digits - 1) numbers.
    fn steps(self, size: f64) -> i128 {
        if size.is_infinite() {
            return self.steps(self.greatest()) + 1;
        }
        let (digits, least, _) = self.shape();
        let e = self.binade(size);
        let multiples = scaled(size, digits - 1 - e) as i128;
        (i128::from(e - least) << (digits - 1)) + multiples
    }

    fn place(self, x: f64) -> i128 {
        let steps = self.steps(x.abs());
        if x < 0.0 {
            -steps
        } else {
            steps
        }
    }
}

/// The steps from the float of one pattern to that of the other; none where one is a NaN.
pub fn distance(width: Width, a: u64, b: u64) -> Option<u64> {
    let (a, b) = (width.value(a), width.value(b));
    if a.is_nan() || b.is_nan() {
        return None;
    }
    Some((width.place(a) - width.place(b)).unsigned_abs() as u64)
}

/// The same as the port gives it: the distance, or 0, and the code.
pub fn answer(width: Width, a: u64, b: u64) -> (u64, u64) {
    distance(width, a, b).map_or((0, NO_DISTANCE), |d| (d, 0))
}

/// How far apart the values of two answers are, in words behind a comma; nothing where they are the same.
pub fn told(width: Width, port: u64, rust: u64) -> String {
    match distance(width, port, rust) {
        _ if port == rust => String::new(),
        Some(0) => ", zeros of opposite signs".to_string(),
        Some(1) => ", 1 step apart".to_string(),
        Some(steps) => format!(", {steps} steps apart"),
        None => ", a NaN among them".to_string(),
    }
}

/// A number of up to 63 bits, each length as likely.
fn short(random: &mut Random) -> u64 {
    random.next() >> (1 + random.below(63))
}

/// Pairs of patterns: every pair of the specials, and random ones.
pub struct Pairs {
    width: Width,
    specials: Vec<u64>,
    patterns: Patterns,
}

impl Pairs {
    pub fn new(width: Width) -> Pairs {
        Pairs {
            width,
            specials: width.specials(),
            patterns: Patterns::new(width),
        }
    }

    /// How many pairs are asked whatever the seed.
    pub fn systematic(&self) -> u64 {
        (self.specials.len() * self.specials.len()) as u64
    }

    /// The pair at a place: first the systematic ones, then random ones.
    pub fn pair(&self, place: u64, random: &mut Random) -> (u64, u64) {
        let n = self.specials.len() as u64;
        if place < n * n {
            return (
                self.specials[(place / n) as usize],
                self.specials[(place % n) as usize],
            );
        }
        self.random(random)
    }

    /// Two patterns: any two, one of them special, two small sizes, or one and what stands up to a random
    /// number of patterns from it, with its sign or the other.
    pub fn random(&self, random: &mut Random) -> (u64, u64) {
        let sign_bit = self.width.sign_bit();
        let bits = sign_bit | (sign_bit - 1);
        let sign = random.next() & sign_bit;
        let a = self.patterns.random(random);
        let special = self.specials[random.below(self.specials.len() as u64) as usize];
        let (away, other) = (short(random), short(random));
        match random.below(8) {
            0 => (a, random.next() & bits),
            1 => (a, self.patterns.random(random)),
            2 => (a, special),
            3 => (special, a),
            4 => (special, (special.wrapping_add(away) & bits) ^ sign),
            5 => (away & bits, (other & bits) ^ sign),
            6 => (a, (a.wrapping_sub(away) & bits) ^ sign),
            _ => (a, (a.wrapping_add(away) & bits) ^ sign),
        }
    }
}

#[cfg(test)]
mod tests {
    use super::*;

    const WIDTHS: [Width; 2] = [Width::Double, Width::Single];

    fn double(a: f64, b: f64) -> Option<u64> {
        distance(Width::Double, a.to_bits(), b.to_bits())
    }

    fn single(a: f32, b: f32) -> Option<u64> {
        distance(Width::Single, a.to_bits().into(), b.to_bits().into())
    }

    #[test]
    fn across_zero() {
        let (least, least_f32) = (f64::from_bits(1), f32::from_bits(1));
        assert_eq!(double(least, -least), Some(2));
        assert_eq!(single(least_f32, -least_f32), Some(2));
        assert_eq!(double(0.0, -0.0), Some(0));
        assert_eq!(single(-0.0, 0.0), Some(0));
        assert_eq!(double(-0.0, least), Some(1));
        assert_eq!(single(0.0, -least_f32), Some(1));
    }

    #[test]
    fn an_infinity_is_one_step_past_the_greatest_finite_number() {
        assert_eq!(double(f64::MAX, f64::INFINITY), Some(1));
        assert_eq!(single(f32::MIN, f32::NEG_INFINITY), Some(1));
        assert_eq!(
            double(f64::NEG_INFINITY, f64::INFINITY),
            Some((2 * 2047) << 52)
        );
        assert_eq!(
            single(f32::NEG_INFINITY, f32::INFINITY),
            Some((2 * 255) << 23)
        );
    }

    #[test]
    fn a_binade_has_as_many_numbers_as_its_digits_make() {
        for k in -1022..1023 {
            let low = scaled(1.0, k);
            assert_eq!(double(low, 2.0 * low), Some(1 << 52));
        }
        for k in -126..127 {
            let low = scaled(1.0, k) as f32;
            assert_eq!(single(low, 2.0 * low), Some(1 << 23));
        }
        assert_eq!(double(0.0, f64::MIN_POSITIVE), Some(1 << 52));
        assert_eq!(single(0.0, f32::MIN_POSITIVE), Some(1 << 23));
        assert_eq!(double(1.0, 1.0 + f64::EPSILON), Some(1));
        assert_eq!(single(1.0, 1.0 - f32::EPSILON / 2.0), Some(1));
    }

    #[test]
    fn a_nan_is_nowhere() {
        for nan in [f64::NAN, -f64::NAN, f64::from_bits(0x7ff0_0000_0000_0001)] {
            assert_eq!(double(nan, nan), None);
            assert_eq!(double(nan, 1.0), None);
            assert_eq!(double(f64::INFINITY, nan), None);
        }
        assert_eq!(single(f32::NAN, 0.0), None);
        assert_eq!(answer(Width::Single, 0x7f80_0001, 0), (0, 4));
        assert_eq!(answer(Width::Double, 0x7f80_0001, 0), (0x7f80_0001, 0));
    }

    /// Consecutive patterns, in the order of their values, one of each value: every next one is a step on.
    #[test]
    fn neighbours_are_a_step_apart() {
        for width in WIDTHS {
            let sign = width.sign_bit();
            let mut centres = Patterns::new(width).systematic;
            centres.retain(|&centre| !width.value(centre).is_nan());
            for centre in centres {
                let size = centre & (sign - 1);
                let sizes = size.saturating_sub(2)..=size + 2;
                let mut window: Vec<u64> = sizes.flat_map(|n| [n, n + sign]).collect();
                window.retain(|&n| {
                    !width.value(n).is_nan() && (size <= 2 || n & sign == centre & sign)
                });
                window.sort_by(|&a, &b| width.value(a).partial_cmp(&width.value(b)).unwrap());
                window.dedup_by_key(|n| width.value(*n));
                for pair in window.windows(2) {
                    assert_eq!(distance(width, pair[0], pair[1]), Some(1), "{pair:x?}");
                }
            }
        }
    }

    #[test]
    fn laws() {
        for width in WIDTHS {
            let pairs = Pairs::new(width);
            let mut random = Random::at(1, 2);
            for place in 0..pairs.systematic() + 100_000 {
                let (a, b) = pairs.pair(place, &mut random);
                let (_, c) = pairs.random(&mut random);
                let d = |a, b| distance(width, a, b);
                assert_eq!(d(a, b), d(b, a));
                if let (Some(ab), Some(bc), Some(ac)) = (d(a, b), d(b, c), d(a, c)) {
                    assert!(u128::from(ac) <= u128::from(ab) + u128::from(bc));
                    assert_eq!(ab == 0, width.value(a) == width.value(b));
                }
            }
        }
    }
}
