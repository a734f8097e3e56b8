//! A batch of all kinds over lent buffers, as one would write it in safe Rust, with the port's stop codes.

use crate::{bits, bits_of_f32};
use core::slice;

fn sign_byte(sign: i32) -> u8 {
    if sign < 0 {
        255
    } else {
        1
    }
}

/// The bytes of the values and, where the kind has one, the sign byte, in the first places; and how many.
fn answer(kind: u8, body: &[u8]) -> ([u8; 16], usize) {
    let mut bytes = [0; 16];
    if let Ok(body) = body.try_into() {
        let x = f64::from_bits(u64::from_le_bytes(body));
        let value = match kind {
            1 => libm::tgamma(x),
            2 => {
                let (value, sign) = libm::lgamma_r(x);
                bytes[8] = sign_byte(sign);
                value
            }
            3 => libm::erf(x),
            4 => libm::erfc(x),
            _ => {
                bytes[8..].copy_from_slice(&bits(libm::erfc(x)).to_le_bytes());
                libm::erf(x)
            }
        };
        bytes[..8].copy_from_slice(&bits(value).to_le_bytes());
        let length = match kind {
            2 => 9,
            7 => 16,
            _ => 8,
        };
        return (bytes, length);
    }
    let x = f32::from_bits(u32::from_le_bytes(body.try_into().unwrap_or([0; 4])));
    let value = match kind {
        17 => {
            let (value, sign) = libm::lgammaf_r(x);
            bytes[4] = sign_byte(sign);
            value
        }
        18 => libm::tgammaf(x),
        19 => libm::erff(x),
        _ => libm::erfcf(x),
    };
    bytes[..4].copy_from_slice(&bits_of_f32(value).to_le_bytes());
    (bytes, if kind == 17 { 5 } else { 4 })
}

fn batch(mut requests: &[u8], answers: &mut [u8]) -> u64 {
    let mut written = 0;
    while let Some((&kind, rest)) = requests.split_first() {
        let width = match kind {
            1..=4 | 7 => 8,
            17..=20 => 4,
            _ => return 1,
        };
        let body = match rest.get(..width) {
            Some(body) => body,
            None => return 2,
        };
        let (bytes, length) = answer(kind, body);
        let place = match answers.get_mut(written..written + 1 + length) {
            Some(place) => place,
            None => return 3,
        };
        place[0] = kind + 128;
        place[1..].copy_from_slice(&bytes[..length]);
        written += 1 + length;
        requests = &rest[width..];
    }
    0
}

/// # Safety
/// The pointers are those of two buffers of these lengths, which do not overlap.
#[no_mangle]
pub unsafe extern "C" fn rust_batch_code(
    requests: *const u8,
    requests_length: usize,
    answers: *mut u8,
    answers_length: usize,
) -> u64 {
    batch(
        slice::from_raw_parts(requests, requests_length),
        slice::from_raw_parts_mut(answers, answers_length),
    )
}
