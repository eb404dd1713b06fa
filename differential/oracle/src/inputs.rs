//! Inputs for a differential run, the same for the same seed.
//!
//! Two families are exhaustive ([`lengths`]); the others come in rounds, each round a few cases from one random path.

pub mod arrivals;
pub mod bytes;
pub mod damage;
pub mod journeys;
pub mod lengths;
pub mod paths;
pub mod rng;
pub mod tables;
pub mod times;

use crate::Case;
use rng::Rng;

/// What is done with each case.
pub type Visit<'a> = &'a mut dyn FnMut(&Case);

/// A family: its name, and its round.
pub type Family = (&'static str, fn(&mut Rng, Visit));

pub const FAMILIES: [Family; 6] = [
    ("right MACs", arrivals::round),
    ("journeys", journeys::round),
    ("damaged", damage::round),
    ("times", times::round),
    ("tables", tables::round),
    ("random bytes", bytes::round),
];

/// Rounds of one family until at least so many cases were visited; how many were.
pub fn rounds(family: Family, seed: u64, cases: u64, visit: Visit) -> u64 {
    let mut rng = Rng::new(seed);
    let mut visited = 0;
    while visited < cases {
        family.1(&mut rng, &mut |case| {
            visited += 1;
            visit(case);
        });
    }
    visited
}
