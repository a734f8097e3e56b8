//! The functions by bits. Of a log-gamma it is the value.

use crate::{bits, bits_of_f32};

#[no_mangle]
pub extern "C" fn rust_tgamma(x: u64) -> u64 {
    bits(libm::tgamma(f64::from_bits(x)))
}

#[no_mangle]
pub extern "C" fn rust_lgamma_r(x: u64) -> u64 {
    bits(libm::lgamma_r(f64::from_bits(x)).0)
}

#[no_mangle]
pub extern "C" fn rust_erf(x: u64) -> u64 {
    bits(libm::erf(f64::from_bits(x)))
}

#[no_mangle]
pub extern "C" fn rust_erfc(x: u64) -> u64 {
    bits(libm::erfc(f64::from_bits(x)))
}

/// erf and erfc of the same number, which the crate has no one function for.
///
/// # Safety
/// `pair` has room for two words.
#[no_mangle]
pub unsafe extern "C" fn rust_erf_erfc(x: u64, pair: *mut u64) {
    let x = f64::from_bits(x);
    pair.write(bits(libm::erf(x)));
    pair.add(1).write(bits(libm::erfc(x)));
}

#[no_mangle]
pub extern "C" fn rust_lgammaf_r(x: u32) -> u32 {
    bits_of_f32(libm::lgammaf_r(f32::from_bits(x)).0)
}

#[no_mangle]
pub extern "C" fn rust_tgammaf(x: u32) -> u32 {
    bits_of_f32(libm::tgammaf(f32::from_bits(x)))
}

#[no_mangle]
pub extern "C" fn rust_erff(x: u32) -> u32 {
    bits_of_f32(libm::erff(f32::from_bits(x)))
}

#[no_mangle]
pub extern "C" fn rust_erfcf(x: u32) -> u32 {
    bits_of_f32(libm::erfcf(f32::from_bits(x)))
}
