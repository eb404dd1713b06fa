//! Random bytes, from none to more than a header: any at all, or with lengths and fields that often fit together.

use super::{Visit, lengths::fill_likely, rng::Rng};
use crate::{
    Call, Case,
    case::{lengths, meta},
    sizes,
};

/// One string of bytes in each call.
pub fn round(rng: &mut Rng, visit: Visit) {
    let path = match rng.below(4) {
        0 => any_bytes(rng),
        1 => random_fields(rng),
        _ => likely_fields(rng),
    };
    let mut ids: Vec<u16> = (0..rng.below(8)).map(|_| rng.below(6) as u16).collect();
    ids.sort();
    ids.dedup();
    let mut case = Case {
        call: Call::Step,
        path,
        states: ids.iter().map(|_| rng.below(8) as u8).collect(),
        ids,
        interface: rng.below(5) as u16,
        now: rng.pick(&[1000, 1337, 1338, 1675, 1676, u32::MAX]),
        key: rng.key(),
        ignore_macs: !rng.once_in(8),
    };
    if rng.once_in(8) {
        case.now = rng.number() as u32;
    }
    for call in Call::ALL {
        case.call = call;
        visit(&case);
    }
}

/// Any bytes; those with more than 64 hops are mostly too short for them.
fn any_bytes(rng: &mut Rng) -> Vec<u8> {
    let mut bytes = vec![0; rng.below(900)];
    rng.fill(&mut bytes);
    bytes
}

/// Few hops, complete, the indices mostly within reach, the fields any bytes.
fn random_fields(rng: &mut Rng) -> Vec<u8> {
    let mut few = || rng.pick(&[0, 1, 2, 2, 3, 4, 7]);
    let triple = [few(), few(), few()];
    let (curr_inf, curr_hf) = if rng.once_in(4) {
        (rng.below(4), rng.below(64))
    } else {
        (rng.below(3), rng.below(10))
    };
    let mut bytes = meta(curr_inf as u8, curr_hf as u8, triple).to_vec();
    bytes.resize(sizes(triple).bytes + rng.below(3) * rng.below(12), 0);
    rng.fill(&mut bytes[4..]);
    bytes
}

/// The same with fields of few different values.
fn likely_fields(rng: &mut Rng) -> Vec<u8> {
    let mut bytes = random_fields(rng);
    let sizes = sizes(lengths(&bytes).expect("a meta word"));
    fill_likely(rng, &mut bytes[4..sizes.bytes], sizes.info_fields);
    bytes
}
