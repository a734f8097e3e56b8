//! A plain loop over erf records: unaligned loads and stores, no bounds checked, no kind looked at.

use crate::bits;

/// # Safety
/// The pointers are those of two buffers of 9 bytes a record, which do not overlap.
#[no_mangle]
pub unsafe extern "C" fn rust_erf_records(requests: *const u8, count: usize, answers: *mut u8) {
    for record in 0..count {
        let (from, to) = (requests.add(9 * record), answers.add(9 * record));
        let x = u64::from_le(from.add(1).cast::<u64>().read_unaligned());
        let y = bits(libm::erf(f64::from_bits(x)));
        to.write(3 + 128);
        to.add(1).cast::<u64>().write_unaligned(y.to_le());
    }
}
