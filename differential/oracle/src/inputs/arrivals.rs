//! Paths with right MACs where they arrive or leave, with a table that mostly lets them go on.

use super::{
    Visit,
    paths::{Path, Place, random_interface},
    rng::Rng,
};
use crate::{Call, Case};

/// What is asked of the interfaces at a segment change, core to child and so on, as state bytes without "up".
const ALLOWED_PAIRS: [(u8, u8); 5] = [(0, 2), (2, 0), (2, 2), (2, 3), (3, 2)];

/// A path at a place with all that a call takes.
pub fn case_at(rng: &mut Rng, path: &Path, place: Place, call: Call) -> Case {
    let ingress = path.travel_ingress(place);
    let interface = match call {
        Call::Egress if rng.once_in(16) => random_interface(rng),
        Call::Egress => path.travel_egress(place),
        _ => match rng.below(16) {
            0 | 1 => 0,
            2 => random_interface(rng),
            _ if ingress == 0 => random_interface(rng),
            _ => ingress,
        },
    };
    let from_outside = call != Call::Egress && interface != 0;
    let (ids, states) = fitting_table(rng, path, place);
    let mut bytes = path.bytes(place, from_outside);
    if rng.once_in(8) {
        let tail = rng.below(24);
        bytes.extend((0..tail).map(|_| rng.number() as u8));
    }
    Case {
        call,
        path: bytes,
        ids,
        states,
        interface,
        now: path.now,
        key: path.key,
        ignore_macs: rng.once_in(8),
    }
}

/// A table that mostly lists what the place needs, mostly up, mostly with an allowed pair, among other interfaces.
fn fitting_table(rng: &mut Rng, path: &Path, place: Place) -> (Vec<u16>, Vec<u8>) {
    let (link_in, link_out) = rng.pick(&ALLOWED_PAIRS);
    let leaving = path.travel_egress(path.change(place).unwrap_or(place));
    let others = match rng.below(32) {
        0 => 254,
        1 => rng.below(255),
        _ => rng.below(6),
    };
    let mut entries: Vec<(u16, u8)> = Vec::with_capacity(256);
    for (id, link) in [(leaving, link_out), (path.travel_ingress(place), link_in)] {
        if !rng.once_in(16) {
            let link = if rng.once_in(6) {
                rng.below(4) as u8
            } else {
                link
            };
            entries.push((id, link + if rng.once_in(12) { 0 } else { 4 }));
        }
    }
    for _ in 0..others {
        entries.push((random_interface(rng), rng.below(8) as u8));
    }
    entries.sort_by_key(|entry| entry.0);
    entries.dedup_by_key(|entry| entry.0);
    entries.into_iter().unzip()
}

/// Each call at one place of a path, and the two halves at the end of a segment if it has a change.
pub fn round(rng: &mut Rng, visit: Visit) {
    let path = Path::random(rng);
    let places = path.places();
    let place = rng.pick(&places);
    for call in Call::ALL {
        visit(&case_at(rng, &path, place, call));
    }
    let change = places.iter().find(|place| path.change(**place).is_some());
    if let Some(change) = change {
        for call in [Call::Step, Call::Ingress] {
            visit(&case_at(rng, &path, *change, call));
        }
    }
}
