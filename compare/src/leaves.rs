//! What the Rust answers to a question to a single leaf: libm's functions, the language's casts and its
//! `fract`, and Horner's rule written out. A NaN has one pattern, as an argument and as an answer. The
//! distance of two floats is compare's own, and takes NaNs of every pattern.

// The constants have the digits of the Rust.
#![allow(clippy::excessive_precision)]

use crate::distance;
use crate::patterns::Width;

pub const NAN: u64 = 0x7ff8_0000_0000_0000;
pub const NAN_F32: u32 = 0x7fc0_0000;

/// The answer to a number that is no leaf's.
pub const UNKNOWN: u64 = u64::MAX;

// The kernels are private in libm: their files are taken as they are.
mod k_sin {
    include!(concat!(env!("LIBM_DIR"), "/src/math/k_sin.rs"));
}

mod k_cos {
    include!(concat!(env!("LIBM_DIR"), "/src/math/k_cos.rs"));
}

mod k_sinf {
    include!(concat!(env!("LIBM_DIR"), "/src/math/k_sinf.rs"));
}

mod k_cosf {
    include!(concat!(env!("LIBM_DIR"), "/src/math/k_cosf.rs"));
}

/// A leaf of the port, as the program `leaves` numbers them.
pub struct Leaf {
    pub number: u64,
    pub name: &'static str,
    /// The width of the argument a.
    pub width: Width,
    /// What b is, where it is an argument too.
    pub second: Second,
}

/// The second argument of a leaf.
#[derive(Clone, Copy)]
pub enum Second {
    Nothing,
    /// A word to set.
    Word,
    /// An i32, the exponent of a power of 2.
    Exponent,
    /// An f64.
    Double,
    /// An f64, of the pairs of `powers`.
    Power,
    /// A float of the same width, of the pairs of `distance`.
    Beside,
}

const fn leaf(number: u64, name: &'static str, width: Width) -> Leaf {
    let second = match number {
        9 | 10 => Second::Word,
        40 | 64 => Second::Exponent,
        67 | 69 => Second::Double,
        71 => Second::Power,
        96..=99 => Second::Beside,
        _ => Second::Nothing,
    };
    Leaf {
        number,
        name,
        width,
        second,
    }
}

pub const LEAVES: [Leaf; 54] = [
    leaf(1, "fabs", Width::Double),
    leaf(2, "floor", Width::Double),
    leaf(3, "whole", Width::Double),
    leaf(4, "narrow", Width::Double),
    leaf(5, "get_high_word", Width::Double),
    leaf(6, "get_low_word", Width::Double),
    leaf(7, "sign", Width::Double),
    leaf(8, "size_word", Width::Double),
    leaf(9, "with_set_high_word", Width::Double),
    leaf(10, "with_set_low_word", Width::Double),
    leaf(12, "whole, fraction", Width::Double),
    leaf(16, "horner of 0", Width::Double),
    leaf(17, "horner of 1", Width::Double),
    leaf(18, "horner of 2", Width::Double),
    leaf(19, "horner of 5", Width::Double),
    leaf(20, "horner of 9", Width::Double),
    leaf(33, "fabsf", Width::Single),
    leaf(34, "floorf", Width::Single),
    leaf(35, "wholef", Width::Single),
    leaf(36, "sign_f32", Width::Single),
    leaf(37, "size_bits", Width::Single),
    leaf(38, "expf", Width::Single),
    leaf(39, "logf", Width::Single),
    leaf(40, "scalbnf", Width::Single),
    leaf(41, "erff", Width::Single),
    leaf(42, "erfcf", Width::Single),
    leaf(43, "lgammaf_r", Width::Single),
    leaf(44, "tgammaf", Width::Single),
    leaf(45, "wholef, fraction", Width::Single),
    leaf(48, "hornerf of 0", Width::Single),
    leaf(49, "hornerf of 1", Width::Single),
    leaf(50, "hornerf of 2", Width::Single),
    leaf(51, "hornerf of 5", Width::Single),
    leaf(64, "scalbn", Width::Double),
    leaf(65, "exp", Width::Double),
    leaf(66, "log", Width::Double),
    leaf(67, "k_sin", Width::Double),
    leaf(68, "k_sin of no tail", Width::Double),
    leaf(69, "k_cos", Width::Double),
    leaf(70, "sqrt", Width::Double),
    leaf(71, "pow", Width::Double),
    leaf(72, "k_sinf", Width::Double),
    leaf(73, "k_cosf", Width::Double),
    leaf(80, "erf", Width::Double),
    leaf(81, "erfc", Width::Double),
    leaf(82, "lgamma_r, value", Width::Double),
    leaf(83, "lgamma_r, sign", Width::Double),
    leaf(84, "tgamma", Width::Double),
    leaf(85, "erf_erfc, erf", Width::Double),
    leaf(86, "erf_erfc, erfc", Width::Double),
    leaf(96, "distance", Width::Double),
    leaf(97, "distance, code", Width::Double),
    leaf(98, "distance_f32", Width::Single),
    leaf(99, "distance_f32, code", Width::Single),
];

/// The width of the float that a leaf answers; none where its answer is another number. The value of
/// lgammaf_r is the low half of its answer.
fn value_width(leaf: u64) -> Option<Width> {
    match leaf {
        1 | 2 | 9 | 10 | 16..=20 | 64..=71 | 80..=82 | 84..=86 => Some(Width::Double),
        4 | 33 | 34 | 38..=44 | 48..=51 | 72 | 73 => Some(Width::Single),
        _ => None,
    }
}

/// How two answers of a leaf differ, in words behind a comma; nothing where they are no floats.
pub fn told(leaf: u64, port: u64, rust: u64) -> String {
    let low = |n: u64| n & 0xffff_ffff;
    match value_width(leaf) {
        Some(Width::Double) => distance::told(Width::Double, port, rust),
        Some(Width::Single) if leaf == 43 && port - low(port) != rust - low(rust) => {
            distance::told(Width::Single, low(port), low(rust)) + ", another sign"
        }
        Some(Width::Single) if port - low(port) == rust - low(rust) => {
            distance::told(Width::Single, low(port), low(rust))
        }
        _ => String::new(),
    }
}

// erf.rs
const PP0: f64 = 1.28379167095512558561e-01;
const PP1: f64 = -3.25042107247001499370e-01;
const PP2: f64 = -2.84817495755985104766e-02;
const PP3: f64 = -5.77027029648944159157e-03;
const PP4: f64 = -2.37630166566501626084e-05;
const SA1: f64 = 1.96512716674392571292e+01;
const SA2: f64 = 1.37657754143519042600e+02;
const SA3: f64 = 4.34565877475229228821e+02;
const SA4: f64 = 6.45387271733267880336e+02;
const SA5: f64 = 4.29008140027567833386e+02;
const SA6: f64 = 1.08635005541779435134e+02;
const SA7: f64 = 6.57024977031928170135e+00;
const SA8: f64 = -6.04244152148580987438e-02;

// erff.rs
const PP0_F32: f32 = 1.2837916613e-01;
const PP1_F32: f32 = -3.2504209876e-01;
const PP2_F32: f32 = -2.8481749818e-02;
const PP3_F32: f32 = -5.7702702470e-03;
const PP4_F32: f32 = -2.3763017452e-05;

pub fn bits_of(x: f64) -> u64 {
    if x.is_nan() {
        NAN
    } else {
        x.to_bits()
    }
}

pub fn bits_of_f32(x: f32) -> u32 {
    if x.is_nan() {
        NAN_F32
    } else {
        x.to_bits()
    }
}

/// `as i32`, but 0 from size 2^31 on, where the Rust gives the nearest i32.
fn whole(x: f64) -> u64 {
    if x.abs() < 2147483648.0 {
        u64::from((x as i32) as u32)
    } else {
        0
    }
}

fn horner(leaf: u64, x: f64) -> f64 {
    match leaf {
        16 => 0.0,
        17 => PP0,
        18 => PP0 + x * PP1,
        19 => PP0 + x * (PP1 + x * (PP2 + x * (PP3 + x * PP4))),
        _ => {
            1.0 + x
                * (SA1
                    + x * (SA2
                        + x * (SA3 + x * (SA4 + x * (SA5 + x * (SA6 + x * (SA7 + x * SA8)))))))
        }
    }
}

fn hornerf(leaf: u64, x: f32) -> f32 {
    match leaf {
        48 => 0.0,
        49 => PP0_F32,
        50 => PP0_F32 + x * PP1_F32,
        _ => PP0_F32 + x * (PP1_F32 + x * (PP2_F32 + x * (PP3_F32 + x * PP4_F32))),
    }
}

fn answer_double(leaf: u64, x: f64, b: u64) -> u64 {
    let bits = bits_of(x);
    let (word, y) = (b & 0xffff_ffff, f64::from_bits(b));
    match leaf {
        1 => bits_of(libm::fabs(x)),
        2 => bits_of(libm::floor(x)),
        3 => whole(x),
        4 => u64::from(bits_of_f32(x as f32)),
        5 => bits >> 32,
        6 => bits & 0xffff_ffff,
        7 => bits >> 63,
        8 => (bits >> 32) & 0x7fff_ffff,
        9 => bits_of(f64::from_bits(word << 32 | (bits & 0xffff_ffff))),
        10 => bits_of(f64::from_bits((bits >> 32) << 32 | word)),
        12 => u64::from(x.is_finite() && x.fract() != 0.0),
        16..=20 => bits_of(horner(leaf, x)),
        64 => bits_of(libm::scalbn(x, word as i32)),
        65 => bits_of(libm::exp(x)),
        66 => bits_of(libm::log(x)),
        67 => bits_of(k_sin::k_sin(x, y, 1)),
        68 => bits_of(k_sin::k_sin(x, 0.0, 0)),
        69 => bits_of(k_cos::k_cos(x, y)),
        70 => bits_of(libm::sqrt(x)),
        71 => bits_of(libm::pow(x, y)),
        72 => u64::from(bits_of_f32(k_sinf::k_sinf(x))),
        73 => u64::from(bits_of_f32(k_cosf::k_cosf(x))),
        80 | 85 => bits_of(libm::erf(x)),
        81 | 86 => bits_of(libm::erfc(x)),
        82 => bits_of(libm::lgamma_r(x).0),
        83 => u64::from(libm::lgamma_r(x).1 as u32),
        84 => bits_of(libm::tgamma(x)),
        _ => UNKNOWN,
    }
}

fn answer_single(leaf: u64, x: f32, b: u64) -> u64 {
    let bits = bits_of_f32(x);
    let answer = match leaf {
        33 => bits_of_f32(libm::fabsf(x)),
        34 => bits_of_f32(libm::floorf(x)),
        35 => return whole(f64::from(x)),
        36 => bits >> 31,
        37 => bits & 0x7fff_ffff,
        38 => bits_of_f32(libm::expf(x)),
        39 => bits_of_f32(libm::logf(x)),
        40 => bits_of_f32(libm::scalbnf(x, b as u32 as i32)),
        41 => bits_of_f32(libm::erff(x)),
        42 => bits_of_f32(libm::erfcf(x)),
        43 => {
            let (value, sign) = libm::lgammaf_r(x);
            return u64::from(sign as u32) << 32 | u64::from(bits_of_f32(value));
        }
        44 => bits_of_f32(libm::tgammaf(x)),
        45 => u32::from(x.is_finite() && x.fract() != 0.0),
        48..=51 => bits_of_f32(hornerf(leaf, x)),
        _ => return UNKNOWN,
    };
    u64::from(answer)
}

/// The Rust's answer of a leaf at the arguments' bits a and b.
pub fn answer(leaf: u64, a: u64, b: u64) -> u64 {
    match leaf {
        32..=63 => answer_single(leaf, f32::from_bits(a as u32), b),
        96 => distance::answer(Width::Double, a, b).0,
        97 => distance::answer(Width::Double, a, b).1,
        98 => distance::answer(Width::Single, a, b).0,
        99 => distance::answer(Width::Single, a, b).1,
        _ => answer_double(leaf, f64::from_bits(a), b),
    }
}

/// The bytes of a request to the program `leaves`.
pub fn request(leaf: u64, a: u64, b: u64) -> [u8; 24] {
    let mut bytes = [0; 24];
    bytes[..8].copy_from_slice(&leaf.to_le_bytes());
    bytes[8..16].copy_from_slice(&a.to_le_bytes());
    bytes[16..].copy_from_slice(&b.to_le_bytes());
    bytes
}

/// A word of eight bytes.
fn word(bytes: &[u8]) -> u64 {
    u64::from_le_bytes(bytes.try_into().unwrap())
}

/// The Rust's answer to the bytes of a request.
pub fn answer_bytes(request: &[u8]) -> [u8; 8] {
    answer(
        word(&request[..8]),
        word(&request[8..16]),
        word(&request[16..]),
    )
    .to_le_bytes()
}

/// How two differing answers to the bytes of a request differ, in words.
pub fn told_bytes(request: &[u8], port: &[u8], rust: &[u8]) -> String {
    match port.len() {
        8 => told(word(&request[..8]), word(port), word(rust)),
        _ => String::new(),
    }
}

#[cfg(test)]
mod tests {
    use super::*;
    use crate::patterns::{power_of_two, Patterns};

    fn double(leaf: u64, x: f64) -> u64 {
        answer(leaf, x.to_bits(), 0)
    }

    #[test]
    fn whole_is_zero_from_size_2_to_the_31_on() {
        assert_eq!(double(3, -2147483647.9), 0x8000_0001);
        assert_eq!(double(3, -2147483648.0), 0);
        assert_eq!(double(3, 2147483647.9), 0x7fff_ffff);
        assert_eq!(double(3, 2147483648.0), 0);
        assert_eq!(double(3, f64::NAN), 0);
        assert_eq!(double(3, -0.9), 0);
    }

    #[test]
    fn a_fraction_is_seen_at_every_size() {
        let both = |x: f64| [double(12, x), double(12, -x)];
        let single = |x: f32| answer(45, u64::from(x.to_bits()), 0);
        let singles = |x: f32| [single(x), single(-x)];
        for k in 0..52 {
            for x in [power_of_two(k), power_of_two(k + 1) - 1.0] {
                assert_eq!((both(x), both(x + 0.5)), ([0, 0], [1, 1]), "{x}");
                if k < 23 {
                    let y = x as f32;
                    assert_eq!((singles(y), singles(y + 0.5)), ([0, 0], [1, 1]), "{y}");
                }
            }
        }
        for x in [0.0, power_of_two(52), f64::MAX, f64::INFINITY, f64::NAN] {
            assert_eq!(both(x), [0, 0], "{x:e}");
        }
        for x in [0.0, 8388608.0, f32::MAX, f32::INFINITY, f32::NAN] {
            assert_eq!(singles(x), [0, 0], "{x:e}");
        }
        for n in [1, 0xf_ffff_ffff_ffff, 0x3fef_ffff_ffff_ffff] {
            assert_eq!(both(f64::from_bits(n)), [1, 1], "{n:#x}");
        }
        for n in [1, 0x7f_ffff, 0x3f7f_ffff] {
            assert_eq!(singles(f32::from_bits(n)), [1, 1], "{n:#x}");
        }
    }

    #[test]
    fn the_root_is_the_machines() {
        for &n in &Patterns::new(Width::Double).systematic {
            let root = std::hint::black_box(f64::from_bits(n).sqrt());
            assert_eq!(answer(70, n, 0), bits_of(root));
        }
    }

    #[test]
    fn a_nan_has_one_pattern() {
        for nan in [0x7ff0_0000_0000_0001, u64::MAX] {
            assert_eq!(answer(1, nan, 0), NAN);
            assert_eq!(answer(4, nan, 0), u64::from(NAN_F32));
            assert_eq!(answer(5, nan, 0), 0x7ff8_0000);
            assert_eq!(answer(6, nan, 0), 0);
            assert_eq!(answer(7, nan, 0), 0);
        }
        assert_eq!(answer(9, 1.5f64.to_bits(), 0xffff_ffff), NAN);
        assert_eq!(answer(33, 0xffff_ffff, 0), u64::from(NAN_F32));
    }

    #[test]
    fn how_far_apart() {
        let (one, two) = (1f64.to_bits(), 2f64.to_bits());
        assert_eq!(told(84, one, one + 3), ", 3 steps apart");
        assert_eq!(told(84, NAN, one), ", a NaN among them");
        assert_eq!(told(41, 1, 0x8000_0000), ", 1 step apart");
        assert_eq!(
            told(43, 1 << 32 | 7, 0xffff_ffff << 32 | 7),
            ", another sign"
        );
        assert_eq!(told(43, 1 << 32 | 7, 1 << 32 | 5), ", 2 steps apart");
        assert_eq!(told(43, 7, 1 << 32 | 6), ", 1 step apart, another sign");
        assert_eq!(told(41, UNKNOWN, 7), "");
        assert_eq!(told(96, 7, 5), "");
        let request = request(80, two, 0);
        assert_eq!(
            told_bytes(&request, &two.to_le_bytes(), &one.to_le_bytes()),
            ", 4503599627370496 steps apart"
        );
        assert_eq!(told_bytes(&request, &[], &one.to_le_bytes()), "");
    }

    #[test]
    fn an_unknown_number_is_all_ones() {
        for number in 0..130 {
            let known = LEAVES.iter().any(|l| l.number == number);
            assert_eq!(answer(number, 0, 0) == UNKNOWN, !known);
        }
    }
}
