//! What is seen in a path and a plan, to look at beside a refusal of the library. Nothing here is asked for a verdict.

use crate::edition::NO_MEANING;
use crate::header::Header;
use crate::itinerary::{Read, MOST_STATIONS, RECORD};
use crate::plan::Station;
use crate::report::{counted, cut, sentences};
use standard_path::{expiration, Edition, JourneyError};

/// A path that begins as a plan does, sound or not: the wrong file was named. The first record of a plan has the index of a
/// station and zeros, but for slips, where a path has timestamps and MACs.
pub fn plan_as_path(path: &[u8]) -> bool {
    let Some(([high, low, zeros @ ..], records)) = path.split_first_chunk::<RECORD>() else {
        return false;
    };
    let (station, count) = (u16::from_be_bytes([*high, *low]), path.len().div_ceil(RECORD));
    let is_odd = |byte: &&u8| **byte != 0;
    (1..count).contains(&station.into())
        && zeros.iter().filter(is_odd).count() <= 2
        && records.iter().any(|byte| *byte != 0)
}

/// A plan that would do as a path: a header from its first byte to its last.
pub fn path_as_plan(plan: &[u8]) -> bool {
    let header = Header(plan);
    header.hops() > 0 && header.size() == plan.len() && expiration(plan).is_ok()
}

/// What is seen beside a refusal of a journey.
pub fn beside(
    (error, edition): (JourneyError, Edition),
    path: &[u8],
    (plan, read): (&[u8], &Read),
    readings: [u32; 2],
) -> Vec<String> {
    let header = Header(path);
    let mut seen = Vec::new();
    if plan_as_path(path) {
        seen.push("the path is a plan by its bytes: the path is named first, then the plan".into());
    }
    if path_as_plan(plan) {
        seen.push("the plan is a path by its bytes: the path is named first, then the plan".into());
    }
    // What would be read of a plan as of a path is bytes of its keys.
    if plan_as_path(path) {
        return seen;
    }
    match error {
        JourneyError::UnfitItinerary => seen.extend(in_plan(edition, header, read, readings)),
        JourneyError::NotAtStart => {
            seen.push(format!("CurrINF {}, CurrHF {}", header.curr_inf(), header.curr_hf()));
            seen.extend(gap(header));
        }
        JourneyError::AlertSet => seen.extend(alerts(header)),
        // Of 2 to 4, and of one that came later, nothing more is known.
        _ => {}
    }
    seen
}

/// What is odd comes first, then what plan and path say of arrivals.
fn in_plan(edition: Edition, header: Header<'_>, read: &Read, [earliest, latest]: [u32; 2]) -> Vec<String> {
    let (stations, mut seen) = (&read.stations, Vec::new());
    let (count, asked) = (counted(stations.len(), "station"), header.stations(edition));
    if stations.len() != asked {
        let rule = header.stations_rule(edition);
        seen.push(format!("{count}; the path asks for {asked} ({rule})"));
    }
    if earliest > latest {
        seen.push("the earliest reading is after the latest".into());
    }
    seen.extend(odd_stations(stations));
    seen.extend(read.remarks.clone());
    seen.extend(gap(header));
    seen.extend(odd_peering(edition, header));
    if stations.len() == asked {
        seen.push(format!("{count}, as the path asks for"));
    }
    let arrivals = stations.iter().map(|station| station.arrival.to_string()).collect();
    seen.push(format!("arrivals {}", listed(arrivals)));
    seen.push(format!("the path's hops come in by {}", ways_in(header)));
    seen
}

fn gap(header: Header<'_>) -> Option<String> {
    header
        .has_gap()
        .then(|| "an empty segment stands before a used one".into())
}

/// P without a meaning, or where no peering path has it.
fn odd_peering(edition: Edition, header: Header<'_>) -> Option<String> {
    let is_odd = peering(header).next().is_some() && !header.is_peering_path(edition);
    let said = match edition {
        Edition::First => NO_MEANING,
        Edition::Second => "P is set, and the path is no peering path (28)",
    };
    is_odd.then(|| said.into())
}

/// The info fields with P set.
pub fn peering(header: Header<'_>) -> impl Iterator<Item = usize> + '_ {
    let infos = (0..header.infos()).filter_map(move |index| Some((index, header.info(index)?)));
    infos.filter(|(_, info)| info.peering()).map(|(index, _)| index)
}

/// The hops with an alert.
fn alerts(header: Header<'_>) -> Vec<String> {
    let hops = (0..header.hops()).filter_map(|index| Some((index, header.hop(index)?)));
    let hops = hops.filter(|(_, hop)| hop.alerts(true).contains(&true));
    sentences(hops.map(|(index, _)| format!("hop {index} has an alert")).collect())
}

/// The hops' interfaces in the direction of travel, segment by segment.
fn ways_in(header: Header<'_>) -> String {
    let segments = header.segments().into_iter().map(|segment| {
        let Some(info) = header.own_info(segment.reached) else {
            return format!("(segment {} has no info field)", segment.place);
        };
        let hops = (segment.first_hop..).take(segment.hops);
        let hops = hops.map_while(|index| header.hop(index));
        listed(hops.map(|hop| hop.travel(info.cons_dir())[0].to_string()).collect())
    });
    match segments.collect::<Vec<_>>() {
        segments if segments.is_empty() => "none".into(),
        segments => segments.join(" | "),
    }
}

/// A list for reading, cut where no path goes on.
fn listed(words: Vec<String>) -> String {
    match words.is_empty() {
        true => "none".into(),
        false => cut(words, MOST_STATIONS).join(", "),
    }
}

/// What is odd about stations, whatever the path.
pub fn odd_stations(stations: &[Station]) -> Vec<String> {
    let odd = stations.iter().enumerate().flat_map(|(at, station)| {
        let arrival = match (at, station.arrival) {
            (0, arrival @ 1..) => Some(format!("station 0, the first, arrives by {arrival} and not by 0")),
            (1.., 0) => Some(format!("station {at}, not the first, arrives by 0")),
            _ => None,
        };
        arrival.into_iter().chain(odd_table(at, station))
    });
    sentences(odd.collect())
}

/// The first thing that is odd about a station's table.
fn odd_table(at: usize, station: &Station) -> Option<String> {
    let interfaces = &station.interfaces;
    let pair = interfaces.windows(2).find(|pair| pair[0].0 >= pair[1].0);
    let state = interfaces.iter().find(|(_, state)| *state > 7);
    match (pair, state) {
        (Some(pair), _) if pair[0].0 == pair[1].0 => Some(format!("station {at} lists interface {} twice", pair[0].0)),
        (Some(pair), _) => Some(format!(
            "station {at} lists interface {} before {}: not ascending",
            pair[0].0, pair[1].0
        )),
        (_, Some((number, state))) => Some(format!(
            "station {at} lists interface {number} with state {state}, above 7"
        )),
        _ if interfaces.len() > 256 => Some(format!(
            "station {at} lists {} interfaces, and 256 is the most",
            interfaces.len()
        )),
        _ => None,
    }
}
