//! Stands for sciparse/src/core/read.rs: a number read from a range of bits.
//!
//! Assumes, as the name and `layout.rs` have it: bit 0 is the highest bit of byte 0, a range is read as one big-endian
//! number, the rest of its bytes is left out.

use crate::core::layout::BitRange;

/// A number made from the bits read.
pub trait FromUnalignedRead {
    fn from_unaligned_read(value: u128) -> Self;
}

macro_rules! from_unaligned_read {
    ($($number:ty)*) => {
        $(impl FromUnalignedRead for $number {
            #[inline(always)]
            fn from_unaligned_read(value: u128) -> Self {
                value as $number
            }
        })*
    };
}
from_unaligned_read!(u8 u16 u32 u64);

/// Reads the bits of `range`, at most 64.
///
/// # Safety
/// The range lies within the bytes.
#[inline(always)]
pub unsafe fn unchecked_bit_range_be_read<T: FromUnalignedRead>(
    bytes: &[u8],
    range: BitRange,
) -> T {
    let places = range.containing_byte_range();
    let behind = places.end * 8 - range.end;
    let mut value: u128 = 0;
    for place in places {
        // SAFETY: the caller's
        value = value << 8 | unsafe { *bytes.get_unchecked(place) } as u128;
    }
    T::from_unaligned_read(value >> behind & mask(range))
}

/// As many ones as the range has bits.
#[inline(always)]
pub(crate) fn mask(range: BitRange) -> u128 {
    debug_assert!(range.size_bits() <= 64);
    (1 << range.size_bits()) - 1
}
