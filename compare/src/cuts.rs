//! Where the Rust changes its course: the words and the bounds that it compares with.

// The bounds have the digits of the Rust.
#![allow(clippy::excessive_precision)]

/// The high words that tgamma.rs, lgamma_r.rs, erf.rs and exp.rs test.
pub const HIGH_WORDS: [u32; 23] = [
    0x3b90_0000,
    0x3c70_0000,
    0x3c90_0000,
    0x3e30_0000,
    0x3fcd_a661,
    0x3fd0_0000,
    0x3fd6_2e42,
    0x3fe7_6944,
    0x3feb_0000,
    0x3fec_cccc,
    0x3ff0_0000,
    0x3ff0_a2b2,
    0x3ff3_b4c4,
    0x3ff4_0000,
    0x3ffb_b4c3,
    0x4000_0000,
    0x4006_db6d,
    0x4018_0000,
    0x4020_0000,
    0x403c_0000,
    0x4067_0000,
    0x4086_232b,
    0x4390_0000,
];

/// The high words that log.rs tests, and the one behind which its reduction goes to the next exponent.
pub const LOG_WORDS: [u32; 3] = [0x0010_0000, LOG_REDUCTION, 0x7ff0_0000];
pub const LOG_REDUCTION: u32 = 0x3fe6_a09e;

/// The sizes that lgammaf_r.rs, erff.rs, expf.rs and logf.rs test.
pub const SINGLE_CUTS: [u32; 25] = [
    0x2380_0000,
    0x3180_0000,
    0x3500_0000,
    0x3900_0000,
    0x3e6d_3308,
    0x3e80_0000,
    0x3eb1_7218,
    0x3f35_04f3,
    0x3f3b_4a20,
    0x3f58_0000,
    0x3f66_6666,
    0x3f80_0000,
    0x3f85_1592,
    0x3f9d_a620,
    0x3fa0_0000,
    0x3fdd_a618,
    0x4000_0000,
    0x4036_db6d,
    0x40c0_0000,
    0x4100_0000,
    0x41e0_0000,
    0x42ae_ac50,
    0x42b1_7218,
    0x42cf_f1b5,
    0x5c80_0000,
];

/// The sizes at which tgammaf changes: those that tgamma.rs tests, in f32; up to which, and from which on, it is
/// infinite; and those of the negative numbers at which it is first subnormal, first 0, and last not 0.
pub const TGAMMAF_CUTS: [u32; 10] = [
    0x0020_0000,
    0x2480_0000,
    0x40b0_ca2e,
    0x4100_0000,
    0x41b8_0000,
    0x4208_ab04,
    0x420c_2910,
    0x421a_67d9,
    0x4224_000b,
    0x4338_0000,
];

/// The bound that tgamma.rs compares the size with.
pub const GMHALF: f64 = 5.524680040776729583740234375;

/// The bounds that exp.rs compares with: the sizes at which an answer overflows, is subnormal and is 0.
pub const EXP_BOUNDS: [f64; 3] = [
    709.782712893383973096,
    708.39641853226410622,
    745.13321910194110842,
];
