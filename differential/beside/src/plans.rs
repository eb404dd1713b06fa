//! The journey check beside journeys that are driven on the published Rust.
//!
//! A call that the check lets through has to be passed exactly if the path arrives with every clock at the earliest reading and
//! with every clock at the latest; a passed one has to arrive with any other readings too.

use oracle::{inputs::rng::Rng, number};
use scion_step_sys::{SCION_NOT_PASSED as NOT_PASSED, SCION_PASSED as PASSED};
use sciparse::dataplane_path::standard::mac::algo::{calculate_hop_mac, mac_beta_step};

use crate::{archive, has_p};

const RECORD: usize = 32;

#[derive(Clone, Default)]
pub struct Station {
    arrival: u16,
    key: [u8; 16],
    ids: Vec<u16>,
    states: Vec<u8>,
}

pub struct Call {
    pub path: Vec<u8>,
    pub itinerary: Vec<u8>,
    pub earliest: u32,
    pub latest: u32,
}

pub struct Report {
    /// Counts of each verdict.
    pub verdicts: String,
    /// How many have no P, so that the second edition has to give the same verdict.
    pub in_second: u64,
}

/// The check without an edition and in the first by turns.
pub fn compare(seed: u64, journeys: u64, different: &mut u64) -> Report {
    let mut rng = Rng::new(seed);
    let mut counts = std::collections::BTreeMap::new();
    let mut in_second = 0;
    for turn in 0..journeys {
        let lengths = random_lengths(&mut rng);
        let mut call = good_call(&mut rng, lengths, random_station);
        if !rng.once_in(3) {
            damage(&mut rng, &mut call);
        }
        let Call {
            path,
            itinerary,
            earliest,
            latest,
        } = &call;
        let in_edition = |is_second| {
            archive::check_journey_in_edition(is_second, path, itinerary, *earliest, *latest)
        };
        let verdict = if turn % 2 == 0 {
            archive::check_journey(path, itinerary, *earliest, *latest)
        } else {
            in_edition(false)
        };
        *counts.entry(verdict).or_insert(0u64) += 1;
        let asks_second = !has_p(path);
        in_second += u64::from(asks_second);
        if !agrees(&mut rng, &call, verdict) || asks_second && in_edition(true) != verdict {
            *different += 1;
            println!(
                "DIFFERENT JOURNEY: {verdict} {:?} {:?} {} {}",
                call.path, call.itinerary, call.earliest, call.latest
            );
        }
    }
    let counts: Vec<String> = counts
        .iter()
        .map(|(verdict, count)| format!("{verdict}: {count}"))
        .collect();
    Report {
        verdicts: counts.join(", "),
        in_second,
    }
}

fn agrees(rng: &mut Rng, call: &Call, verdict: u16) -> bool {
    if verdict != PASSED && verdict != NOT_PASSED {
        return true;
    }
    let stations = stations(&call.itinerary);
    let constant = |reading| arrives(&call.path, &stations, &vec![reading; stations.len()]);
    let both = constant(call.earliest) && constant(call.latest);
    let span = (call.latest - call.earliest) as usize + 1;
    let any = (0..3).all(|_| {
        let readings: Vec<u32> = stations
            .iter()
            .map(|_| call.earliest + rng.below(span) as u32)
            .collect();
        arrives(&call.path, &stations, &readings)
    });
    (verdict == PASSED) == both && (verdict != PASSED || any)
}

/// The journey as 01 writes it out.
pub fn arrives(path: &[u8], stations: &[Station], readings: &[u32]) -> bool {
    let mut path = path.to_vec();
    for (place, (station, reading)) in stations.iter().zip(readings).enumerate() {
        let Station {
            arrival,
            key,
            ids,
            states,
        } = station;
        let answer =
            oracle::handle_standard_path(&mut path, ids, states, *arrival, *reading, key, false);
        if place + 1 == stations.len() {
            return answer.number == number::FORWARD_LOCAL;
        }
        if answer.number != number::FORWARD_NEXT_HOP {
            return false;
        }
    }
    false
}

/// The stations of a sound itinerary.
pub fn stations(itinerary: &[u8]) -> Vec<Station> {
    let number = |record: usize, at: usize| {
        let place = RECORD * record + at;
        u16::from_be_bytes([itinerary[place], itinerary[place + 1]])
    };
    let mut all = Vec::new();
    let mut record = number(0, 0) as usize;
    while record != 0 {
        let mut station = Station {
            arrival: number(record, 2),
            ..Station::default()
        };
        station
            .key
            .copy_from_slice(&itinerary[RECORD * record + 8..RECORD * record + 24]);
        let mut entry = number(record, 4) as usize;
        while entry != 0 {
            station.ids.push(number(entry, 2));
            station.states.push(itinerary[RECORD * entry + 4]);
            entry = number(entry, 0) as usize;
        }
        all.push(station);
        record = number(record, 0) as usize;
    }
    all
}

// ---- calls

struct Hop {
    exp_time: u8,
    cons_ingress: u16,
    cons_egress: u16,
    station: usize,
}

/// A call that is passed.
pub fn passed_call(rng: &mut Rng, lengths: [usize; 3]) -> Call {
    let station = |rng: &mut Rng, place| Station {
        states: vec![4 + 2; 4],
        ..random_station(rng, place)
    };
    let call = good_call(rng, lengths, station);
    let verdict = archive::check_journey(&call.path, &call.itinerary, call.earliest, call.latest);
    assert_eq!(verdict, PASSED);
    call
}

/// Mostly such that the path passes; times that just fit are frequent.
fn good_call(
    rng: &mut Rng,
    lengths: [usize; 3],
    station: impl Fn(&mut Rng, usize) -> Station,
) -> Call {
    let hops: usize = lengths.iter().sum();
    let infos = lengths.iter().filter(|length| **length != 0).count();
    let plan: Vec<Station> = (0..hops - infos + 1)
        .map(|place| station(rng, place))
        .collect();
    let earliest = 100_000 + rng.below(1000) as u32;
    let latest = earliest + rng.below(400) as u32;

    let [first, second, third] = lengths.map(|length| length as u32);
    let mut path = (first << 12 | second << 6 | third).to_be_bytes().to_vec();
    let mut hop_fields = Vec::new();
    let mut station = 0;
    for length in lengths.into_iter().filter(|length| *length != 0) {
        let cons_dir = rng.once_in(2);
        let timestamp = earliest - rng.pick(&[0, 1, 5000]);
        let hops: Vec<Hop> = (0..length)
            .map(|place| random_hop(rng, &plan, station + place, cons_dir, latest - timestamp))
            .collect();
        station += length - 1;
        let (segment_id, macs) = right_macs(rng.number() as u16, timestamp, cons_dir, &hops, &plan);
        path.extend([
            rng.number() as u8 & 0xfe | u8::from(cons_dir),
            rng.number() as u8,
        ]);
        path.extend(segment_id.to_be_bytes());
        path.extend(timestamp.to_be_bytes());
        for (hop, mac) in hops.iter().zip(macs) {
            hop_fields.extend([rng.number() as u8 & 0xfc, hop.exp_time]);
            hop_fields.extend(hop.cons_ingress.to_be_bytes());
            hop_fields.extend(hop.cons_egress.to_be_bytes());
            hop_fields.extend(mac);
        }
    }
    path.extend(hop_fields);
    Call {
        path,
        itinerary: bytes_of(&plan),
        earliest,
        latest,
    }
}

/// One to three segments.
fn random_lengths(rng: &mut Rng) -> [usize; 3] {
    let mut lengths = [0; 3];
    let segments = 1 + rng.below(3);
    for length in &mut lengths[..segments] {
        *length = if rng.once_in(30) {
            rng.below(22)
        } else {
            2 + rng.below(4)
        };
    }
    lengths
}

/// Children and cores at first, so that segment changes are mostly allowed; interface 1 is up, the others may be down.
fn random_station(rng: &mut Rng, place: usize) -> Station {
    let arrival = if place == 0 {
        0
    } else {
        1 + rng.below(4) as u16
    };
    let ids: Vec<u16> = (1..5).collect();
    let states = ids
        .iter()
        .map(|id| {
            rng.pick(&[2, 2, 2, 2, 0, 3, 1]) + if *id == 1 || !rng.once_in(12) { 4 } else { 0 }
        })
        .collect();
    Station {
        arrival,
        key: rng.key(),
        ids,
        states,
    }
}

fn random_hop(
    rng: &mut Rng,
    plan: &[Station],
    station: usize,
    cons_dir: bool,
    lifetime: u32,
) -> Hop {
    let station = station.min(plan.len() - 1);
    let ingress = if rng.once_in(8) {
        0
    } else {
        plan[station].arrival
    };
    let egress = rng.pick(&plan[station].ids);
    let (cons_ingress, cons_egress) = if cons_dir {
        (ingress, egress)
    } else {
        (egress, ingress)
    };
    // The least ExpTime that lasts, or one more; expiry is the timestamp plus (ExpTime + 1) * 675 / 2.
    let least = (0..255)
        .find(|units| (units + 1) * 675 / 2 >= lifetime)
        .unwrap_or(255);
    let exp_time = (least + rng.below(2) as u32).min(255) as u8;
    Hop {
        exp_time,
        cons_ingress,
        cons_egress,
        station,
    }
}

/// The MACs in path order, worked out in construction order, and the SegID that the path starts the segment with.
fn right_macs(
    beta: u16,
    timestamp: u32,
    cons_dir: bool,
    hops: &[Hop],
    plan: &[Station],
) -> (u16, Vec<[u8; 6]>) {
    let (mut beta, mut last_beta) = (beta, beta);
    let start = beta;
    let mut mac = |hop: &Hop| {
        let mac = calculate_hop_mac(
            beta,
            timestamp,
            hop.exp_time,
            hop.cons_ingress,
            hop.cons_egress,
            &plan[hop.station].key,
        );
        last_beta = beta;
        beta = mac_beta_step(beta, mac);
        mac
    };
    if cons_dir {
        let macs = hops.iter().map(mac).collect();
        return (start, macs);
    }
    let mut macs: Vec<[u8; 6]> = hops.iter().rev().map(&mut mac).collect();
    macs.reverse();
    (last_beta, macs)
}

/// Record 0, then each station, then the tables; equal tables are not shared.
fn bytes_of(plan: &[Station]) -> Vec<u8> {
    let entries: usize = plan.iter().map(|station| station.ids.len()).sum();
    let mut bytes = vec![0; RECORD * (1 + plan.len() + entries)];
    let mut put = |record: usize, at: usize, value: u16| {
        bytes[RECORD * record + at..RECORD * record + at + 2].copy_from_slice(&value.to_be_bytes());
    };
    put(0, 0, 1);
    let mut entry = 1 + plan.len();
    let mut keys = Vec::new();
    let mut states = Vec::new();
    for (place, station) in plan.iter().enumerate() {
        let next = if place + 1 < plan.len() { place + 2 } else { 0 };
        put(1 + place, 0, next as u16);
        put(1 + place, 2, station.arrival);
        put(1 + place, 4, entry as u16);
        keys.push((1 + place, station.key));
        for (id, state) in station.ids.iter().zip(&station.states) {
            let last = *id == station.ids[station.ids.len() - 1];
            put(entry, 0, if last { 0 } else { entry as u16 + 1 });
            put(entry, 2, *id);
            states.push((entry, *state));
            entry += 1;
        }
    }
    for (record, key) in keys {
        bytes[RECORD * record + 8..RECORD * record + 24].copy_from_slice(&key);
    }
    for (record, state) in states {
        bytes[RECORD * record + 4] = state;
    }
    bytes
}

/// One thing changed: a byte or a bit of the path or of the itinerary, an end, a reading.
fn damage(rng: &mut Rng, call: &mut Call) {
    let bytes = if rng.once_in(2) {
        &mut call.path
    } else {
        &mut call.itinerary
    };
    match rng.below(8) {
        0..=3 => {
            let at = rng.below(bytes.len());
            bytes[at] ^= 1 << rng.below(8);
        }
        4 | 5 => {
            let at = rng.below(bytes.len());
            bytes[at] = rng.pick(&[0, 1, 2, 4, 5, 6, 255]);
        }
        6 => bytes.truncate(bytes.len().saturating_sub(1 + rng.below(RECORD))),
        _ => {
            let by = rng.below(4000) as u32;
            if rng.once_in(2) {
                call.latest += by;
            } else {
                call.earliest -= by;
            }
        }
    }
}
