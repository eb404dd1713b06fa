//! Interface tables: every pair of states at a segment change, every state where a packet leaves, every size.

use std::collections::BTreeMap;

use super::{
    Visit,
    arrivals::case_at,
    paths::{Path, Place},
    rng::Rng,
};
use crate::{Call, Case};

pub fn round(rng: &mut Rng, visit: Visit) {
    let path = Path::random(rng);
    let places = path.places();
    let change = places.iter().find(|place| path.change(**place).is_some());
    if let Some(place) = change {
        let mut case = case_at(rng, &path, *place, Call::Step);
        each_pair(&mut case, &path, *place, visit);
    }
    let place = rng.pick(&places);
    let mut case = case_at(rng, &path, place, Call::Step);
    each_pair(&mut case, &path, place, visit);
    each_size(rng, &mut case, &path, place, visit);
}

/// Each pair of states of the interfaces in and out, each of them also not listed.
fn each_pair(case: &mut Case, path: &Path, place: Place, visit: Visit) {
    let into = path.travel_ingress(place);
    let out = path.travel_egress(path.change(place).unwrap_or(place));
    for pair in 0..81 {
        let mut table = BTreeMap::new();
        for (id, state) in [(into, pair % 9), (out, pair / 9)] {
            if state < 8 {
                table.insert(id, state);
            }
        }
        set_table(case, table);
        for call in [Call::Step, Call::Ingress] {
            case.call = call;
            visit(case);
        }
    }
}

/// Each size from 0 to 256, the interfaces in and out at any place of the table or not listed.
fn each_size(rng: &mut Rng, case: &mut Case, path: &Path, place: Place, visit: Visit) {
    let into = path.travel_ingress(place);
    let out = path.travel_egress(path.change(place).unwrap_or(place));
    for size in 0..=256 {
        let mut table = BTreeMap::new();
        if !rng.once_in(8) && size > 1 {
            table.extend([(out, 6), (into, rng.pick(&[2, 6, 6, 7]))]);
        }
        let mut dense = out.wrapping_sub(rng.below(256) as u16);
        let is_dense = rng.once_in(2);
        while table.len() < size {
            dense = dense.wrapping_add(1);
            let id = if is_dense { dense } else { rng.number() as u16 };
            table.entry(id).or_insert(rng.below(8) as u8);
        }
        set_table(case, table);
        case.call = rng.pick(&[Call::Step, Call::Step, Call::Ingress, Call::Egress]);
        visit(case);
    }
}

fn set_table(case: &mut Case, table: BTreeMap<u16, u8>) {
    (case.ids, case.states) = table.into_iter().unzip();
}
