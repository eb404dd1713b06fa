//! The stand-ins that read and write ranges of bits, against the same bit by bit.

use sciparse::core::{
    layout::BitRange, read::unchecked_bit_range_be_read, write::unchecked_bit_range_be_write,
};

fn bit(bytes: &[u8], place: usize) -> u64 {
    (bytes[place / 8] >> (7 - place % 8) & 1) as u64
}

#[test]
fn every_range_of_twelve_bytes() {
    let mut number: u64 = 1;
    for start in 0..96 {
        for width in 1..=(96 - start).min(64) {
            let bytes = [(); 12].map(|_| {
                number = number.wrapping_mul(6364136223846793005).wrapping_add(1);
                (number >> 56) as u8
            });
            let range = BitRange::new(start, width);
            let expected = range
                .bit_range()
                .fold(0, |value, place| value << 1 | bit(&bytes, place));
            // SAFETY: the range lies within the bytes
            let read: u64 = unsafe { unchecked_bit_range_be_read(&bytes, range) };
            assert_eq!(read, expected);

            let value = number >> (64 - width);
            let mut written = bytes;
            // SAFETY: as above
            unsafe { unchecked_bit_range_be_write(&mut written, range, value) };
            for place in 0..96 {
                let expected = if range.contains(place) {
                    value >> (range.end - 1 - place) & 1
                } else {
                    bit(&bytes, place)
                };
                assert_eq!(bit(&written, place), expected);
            }
        }
    }
}
