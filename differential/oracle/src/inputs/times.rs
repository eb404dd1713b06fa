//! Times at the edges: the second before a timestamp and its own, the last second of a hop and the one after.

use super::{
    Visit,
    arrivals::case_at,
    paths::{Path, Place},
    rng::Rng,
};
use crate::Call;

/// One path at one place, at each edge of the hop there and of the next one.
pub fn round(rng: &mut Rng, visit: Visit) {
    let path = Path::random(rng);
    let places = path.places();
    let place = rng.pick(&places);
    let next = places.get(place.curr_hf + 1).copied();
    for call in [Call::Step, Call::Ingress, Call::Egress, Call::Expiration] {
        let mut case = case_at(rng, &path, place, call);
        for now in [0, u32::MAX] {
            case.now = now;
            visit(&case);
        }
        for place in [Some(place), next].into_iter().flatten() {
            for now in edges(&path, place) {
                case.now = now;
                visit(&case);
            }
        }
    }
}

/// Those of the four times that are numbers of 32 bits.
fn edges(path: &Path, place: Place) -> impl Iterator<Item = u32> {
    let segment = &path.segments[place.segment];
    let timestamp = segment.timestamp as i64;
    let lifetime = (segment.hops[place.hop].exp_time as i64 + 1) * 675 / 2;
    let times = [
        timestamp - 1,
        timestamp,
        timestamp + lifetime,
        timestamp + lifetime + 1,
    ];
    times.into_iter().filter_map(|time| time.try_into().ok())
}
