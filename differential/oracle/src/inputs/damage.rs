//! Damaged copies of good paths: each bit flipped, each field set to other values.

use super::{Visit, arrivals::case_at, paths::Path, rng::Rng};
use crate::{Call, Case, case::lengths, sizes};

/// All damage to one path at one place, in each call.
pub fn round(rng: &mut Rng, visit: Visit) {
    // short ones, so that a round does not take long
    let path = loop {
        let path = Path::random(rng);
        if path.places().len() <= 9 {
            break path;
        }
    };
    let place = rng.pick(&path.places());
    for call in Call::ALL {
        let case = case_at(rng, &path, place, call);
        each_bit(&case, visit);
        each_field(rng, &case, visit);
        each_size(&case, visit);
    }
}

/// Each bit of the path flipped.
pub fn each_bit(case: &Case, visit: Visit) {
    let mut case = case.clone();
    for bit in 0..case.path.len() * 8 {
        case.path[bit / 8] ^= 0x80 >> (bit % 8);
        visit(&case);
        case.path[bit / 8] ^= 0x80 >> (bit % 8);
    }
}

/// Each field of the path set to 0, to its largest number, to its neighbours and to a random number.
pub fn each_field(rng: &mut Rng, case: &Case, visit: Visit) {
    let mut case = case.clone();
    for (start, width) in fields(&case.path) {
        let before = get_bits(&case.path, start, width);
        let largest = u64::MAX >> (64 - width);
        let neighbours = [before.wrapping_sub(1) & largest, (before + 1) & largest];
        let random = rng.number() & largest;
        for value in [0, largest, neighbours[0], neighbours[1], random] {
            set_bits(&mut case.path, start, width, value);
            visit(&case);
        }
        set_bits(&mut case.path, start, width, before);
    }
}

/// The path cut at each size up to the header's, so that it is too short.
pub fn each_size(case: &Case, visit: Visit) {
    let mut case = case.clone();
    while case.path.pop().is_some() {
        visit(&case);
    }
}

/// The first bit and the width of each field of a complete header: meta word, info fields, hop fields.
fn fields(path: &[u8]) -> Vec<(usize, usize)> {
    let sizes = sizes(lengths(path).expect("a meta word"));
    let mut fields = vec![(0, 2), (2, 6), (8, 6), (14, 6), (20, 6), (26, 6)];
    for info in 0..sizes.info_fields {
        let at = 8 * (4 + 8 * info);
        fields.extend([(at, 8), (at + 8, 8), (at + 16, 16), (at + 32, 32)]);
    }
    for hop in 0..sizes.hop_fields {
        let at = 8 * (4 + 8 * sizes.info_fields + 12 * hop);
        fields.extend([
            (at, 8),
            (at + 8, 8),
            (at + 16, 16),
            (at + 32, 16),
            (at + 48, 48),
        ]);
    }
    fields
}

fn get_bits(path: &[u8], start: usize, width: usize) -> u64 {
    (start..start + width).fold(0, |value, bit| {
        value << 1 | (path[bit / 8] >> (7 - bit % 8) & 1) as u64
    })
}

fn set_bits(path: &mut [u8], start: usize, width: usize, value: u64) {
    for place in 0..width {
        let bit = start + place;
        let mask = 0x80 >> (bit % 8);
        if value >> (width - 1 - place) & 1 == 1 {
            path[bit / 8] |= mask;
        } else {
            path[bit / 8] &= !mask;
        }
    }
}
