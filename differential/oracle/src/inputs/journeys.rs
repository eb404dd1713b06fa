//! Paths walked from their first hop on: each step's bytes are those that the step before left.

use super::{Visit, arrivals::case_at, paths::Path, rng::Rng};
use crate::{Call, number};

/// A whole journey, as far as the steps forward the packet; at each station also the two halves.
pub fn round(rng: &mut Rng, visit: Visit) {
    let path = Path::random(rng);
    let places = path.places();
    let mut bytes = path.bytes(places[0], false);
    let mut at = 0;
    let mut interface = 0;
    while at < places.len() {
        let place = places[at];
        let mut case = case_at(rng, &path, place, Call::Step);
        case.path = bytes;
        case.interface = interface;
        visit(&case);

        let mut halfway = case.path.clone();
        case.call = Call::Ingress;
        visit(&case);
        let answer = case.run(&mut halfway);
        if answer.number == number::CONTINUE_EGRESS {
            let mut leaving = case.clone();
            leaving.call = Call::Egress;
            leaving.path = halfway;
            leaving.interface = answer.values[0] as u16;
            visit(&leaving);
        }

        bytes = case.path.clone();
        case.call = Call::Step;
        if case.run(&mut bytes).number != number::FORWARD_NEXT_HOP {
            return;
        }
        at += 1 + path.change(place).is_some() as usize;
        // the other end of the link has the number that the next hop names, or any other if it names none
        interface = match places.get(at).map(|place| path.travel_ingress(*place)) {
            Some(0) | None => 1 + rng.below(65535) as u16,
            Some(ingress) => ingress,
        };
    }
}
