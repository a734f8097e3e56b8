//! The C entries linked into this program, beside libm: nothing stands between the two but a call, so that
//! all 2^32 patterns of an f32 function take minutes. The archive is the one of bin/archive for this
//! machine, on x86-64 the proved one.

use crate::distance;
use crate::leaves::{bits_of, bits_of_f32};
use crate::patterns::{Patterns, Width};
use crate::random::Random;
use crate::tally::{Progress, Tally};
use std::num::NonZeroUsize;
use std::thread;

/// The sum of the archive that is linked. Cargo does not look at the archive itself, and builds this anew
/// where the sum is another.
pub const ARCHIVE: &str = env!("ARCHIVE_SUM");

#[link(name = "raveltrellis", kind = "static")]
extern "C" {
    fn rvt_tgamma(x: u64) -> u64;
    fn rvt_lgamma_r_value(x: u64) -> u64;
    fn rvt_lgamma_r_sign(x: u64) -> i32;
    fn rvt_erf(x: u64) -> u64;
    fn rvt_erfc(x: u64) -> u64;
    fn rvt_erf_erfc(x: u64, pair: *mut u8, pair_length: usize) -> u64;
    fn rvt_lgammaf_r_value(x: u32) -> u32;
    fn rvt_lgammaf_r_sign(x: u32) -> i32;
    fn rvt_tgammaf(x: u32) -> u32;
    fn rvt_erff(x: u32) -> u32;
    fn rvt_erfcf(x: u32) -> u32;
}

/// A function on patterns: its value and its sign, 0 where it has none.
type Answer = (u64, i32);

struct Function {
    name: &'static str,
    width: Width,
    port: fn(u64) -> Answer,
    rust: fn(u64) -> Answer,
}

fn double(f: fn(f64) -> f64, x: u64) -> Answer {
    (bits_of(f(f64::from_bits(x))), 0)
}

fn single(f: fn(f32) -> f32, x: u64) -> Answer {
    (u64::from(bits_of_f32(f(f32::from_bits(x as u32)))), 0)
}

/// erf and erfc by one call, whose code is 0.
fn pair(x: u64) -> [u64; 2] {
    let mut bytes = [0xa5; 16];
    assert_eq!(unsafe { rvt_erf_erfc(x, bytes.as_mut_ptr(), 16) }, 0);
    let word = |at: usize| u64::from_le_bytes(bytes[at..at + 8].try_into().unwrap());
    [word(0), word(8)]
}

// The entries take numbers, and one a buffer of its length. They keep nothing, and return for each.
const FUNCTIONS: [Function; 10] = [
    Function {
        name: "tgamma",
        width: Width::Double,
        port: |x| (unsafe { rvt_tgamma(x) }, 0),
        rust: |x| double(libm::tgamma, x),
    },
    Function {
        name: "lgamma_r",
        width: Width::Double,
        port: |x| unsafe { (rvt_lgamma_r_value(x), rvt_lgamma_r_sign(x)) },
        rust: |x| {
            let (value, sign) = libm::lgamma_r(f64::from_bits(x));
            (bits_of(value), sign)
        },
    },
    Function {
        name: "erf",
        width: Width::Double,
        port: |x| (unsafe { rvt_erf(x) }, 0),
        rust: |x| double(libm::erf, x),
    },
    Function {
        name: "erfc",
        width: Width::Double,
        port: |x| (unsafe { rvt_erfc(x) }, 0),
        rust: |x| double(libm::erfc, x),
    },
    Function {
        name: "erf_erfc",
        width: Width::Double,
        port: |x| (pair(x)[0], 0),
        rust: |x| double(libm::erf, x),
    },
    Function {
        name: "erf_erfc, erfc",
        width: Width::Double,
        port: |x| (pair(x)[1], 0),
        rust: |x| double(libm::erfc, x),
    },
    Function {
        name: "lgammaf_r",
        width: Width::Single,
        port: |x| unsafe {
            let x = x as u32;
            (u64::from(rvt_lgammaf_r_value(x)), rvt_lgammaf_r_sign(x))
        },
        rust: |x| {
            let (value, sign) = libm::lgammaf_r(f32::from_bits(x as u32));
            (u64::from(bits_of_f32(value)), sign)
        },
    },
    Function {
        name: "tgammaf",
        width: Width::Single,
        port: |x| (u64::from(unsafe { rvt_tgammaf(x as u32) }), 0),
        rust: |x| single(libm::tgammaf, x),
    },
    Function {
        name: "erff",
        width: Width::Single,
        port: |x| (u64::from(unsafe { rvt_erff(x as u32) }), 0),
        rust: |x| single(libm::erff, x),
    },
    Function {
        name: "erfcf",
        width: Width::Single,
        port: |x| (u64::from(unsafe { rvt_erfcf(x as u32) }), 0),
        rust: |x| single(libm::erfcf, x),
    },
];

/// Every f32 function at all 2^32 patterns, and every f64 function at `count` random ones beside the
/// systematic ones.
pub fn compare(seed: u64, count: u64) -> u8 {
    let doubles = Patterns::new(Width::Double);
    let systematic = doubles.systematic.len() as u64;
    let mut tally = Tally::default();
    println!("archive {ARCHIVE}");
    for (number, function) in (0..).zip(&FUNCTIONS) {
        let before = tally.compared;
        match function.width {
            Width::Single => by_parts(function, 1 << 32, |place| place, &mut tally),
            Width::Double => by_parts(
                function,
                systematic + count,
                |place| match doubles.systematic.get(place as usize) {
                    Some(&x) => x,
                    None => doubles.random(&mut Random::at(seed, place << 8 | number)),
                },
                &mut tally,
            ),
        }
        println!("{}: {} compared", function.name, tally.compared - before);
    }
    tally.finish()
}

/// Compares a function at the patterns of `total` places.
fn by_parts(function: &Function, total: u64, pattern: impl Fn(u64) -> u64 + Sync, sum: &mut Tally) {
    let pattern = &pattern;
    let parts = in_parts(total, |from, upto| part_of(function, from, upto, pattern));
    parts.iter().for_each(|part| sum.add(part));
}

/// Runs `total` places in as many parts at a time as the machine has processors, and answers what each
/// part gives.
pub fn in_parts<T: Send>(total: u64, part: impl Fn(u64, u64) -> T + Sync) -> Vec<T> {
    let parts = thread::available_parallelism().map_or(1, NonZeroUsize::get) as u64;
    let part = &part;
    thread::scope(|scope| {
        let started: Vec<_> = (0..parts)
            .map(|n| scope.spawn(move || part(total * n / parts, total * (n + 1) / parts)))
            .collect();
        let ended = started.into_iter().map(|part| part.join());
        ended.map(|part| part.expect("a part ends")).collect()
    })
}

fn part_of(function: &Function, from: u64, upto: u64, pattern: impl Fn(u64) -> u64) -> Tally {
    let mut tally = Tally::default();
    let mut progress = Progress::new(format!("{} from place {from}", function.name), upto - from);
    for place in from..upto {
        let x = pattern(place);
        let (port, rust) = ((function.port)(x), (function.rust)(x));
        tally.count(port == rust, || {
            let name = function.name;
            let told = distance::told(function.width, port.0, rust.0);
            let sign = if port.1 == rust.1 {
                ""
            } else {
                ", another sign"
            };
            format!("{name} of {x:#x}: port {port:x?}, Rust {rust:x?}{told}{sign}")
        });
        progress.at(place - from);
    }
    progress.end();
    tally
}
