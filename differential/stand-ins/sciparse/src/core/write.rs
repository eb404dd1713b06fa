//! Stands for sciparse/src/core/write.rs: a number written into a range of bits.
//!
//! Assumes what `read.rs` assumes, and that the bits around the range are kept. A number too large for its range is
//! taken to be the caller's fault: it stops the run where assertions are on, and loses its upper bits elsewhere.

use crate::core::{layout::BitRange, read::mask};

/// The bits to write for a number.
pub trait IntoUnalignedWrite {
    fn into_write_value(value: Self) -> u128;
}

macro_rules! into_unaligned_write {
    ($($number:ty)*) => {
        $(impl IntoUnalignedWrite for $number {
            #[inline(always)]
            fn into_write_value(value: Self) -> u128 {
                value as u128
            }
        })*
    };
}
into_unaligned_write!(u8 u16 u32 u64);

/// Writes the bits of `range`, at most 64.
///
/// # Safety
/// The range lies within the bytes.
#[inline(always)]
pub unsafe fn unchecked_bit_range_be_write<T: IntoUnalignedWrite>(
    bytes: &mut [u8],
    range: BitRange,
    value: T,
) {
    let value = T::into_write_value(value);
    let mask = mask(range);
    debug_assert!(value <= mask, "{value} is too large for {range:?}");

    let places = range.containing_byte_range();
    let behind = places.end * 8 - range.end;
    let (mut written, mut replaced) = ((value & mask) << behind, mask << behind);
    for place in places.rev() {
        // SAFETY: the caller's
        let byte = unsafe { bytes.get_unchecked_mut(place) };
        *byte = *byte & !(replaced as u8) | written as u8;
        written >>= 8;
        replaced >>= 8;
    }
}
