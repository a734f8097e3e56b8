//! Crate libm at its best, for bench/driver.c: its functions by bits, as the port's C entries have them; a plain loop over
//! erf records; and a batch of all kinds. Each is built alone, with the crate's functions inlined. A NaN is made one, as in
//! the port.

#![no_std]

#[cfg(feature = "batch")]
mod batch;
#[cfg(feature = "functions")]
mod functions;
#[cfg(feature = "records")]
mod records;

use core::panic::PanicInfo;

#[allow(dead_code)]
fn bits(x: f64) -> u64 {
    if x.is_nan() {
        0x7ff8_0000_0000_0000
    } else {
        x.to_bits()
    }
}

#[allow(dead_code)]
fn bits_of_f32(x: f32) -> u32 {
    if x.is_nan() {
        0x7fc0_0000
    } else {
        x.to_bits()
    }
}

/// Nothing here panics.
#[panic_handler]
fn panic(_: &PanicInfo) -> ! {
    loop {}
}
