//! What no question asks for, and a site may trip over all the same: told beside a path that passed, whose verdict stays.

use crate::edition::NO_MEANING;
use crate::header::{Header, Segment};
use crate::interfaces::KINDS;
use crate::plan::Station;
use crate::report::sentences;
use crate::seen::peering;
use standard_path::Edition;

/// The sentences, for a path that passed.
pub fn beside_pass(edition: Edition, header: Header<'_>, stations: &[Station]) -> Vec<String> {
    let arrivals = stations.iter().enumerate().skip(1).filter_map(|(at, station)| {
        let arrival = station.arrival;
        match kind_and_state(station, arrival) {
            None => Some(format!(
                "station {at} does not list interface {arrival}, which the packet arrives by"
            )),
            Some((_, false)) => Some(format!(
                "station {at} lists interface {arrival}, which the packet arrives by, as down"
            )),
            Some((_, true)) => None,
        }
    });
    let link = header.peering_hops(edition);
    let mut seen: Vec<String> = arrivals.chain(open_hops(header, link)).collect();
    if link.is_none() {
        seen.extend(no_way_back(header));
    }
    // In the second edition no path passes with P in the wrong place.
    if edition == Edition::First {
        seen.extend(peering(header).next().map(|_| NO_MEANING.into()));
    }
    let leaving = leaving(header, link);
    for (at, pair) in stations.windows(2).enumerate() {
        if let Some(&(out, cons_dir)) = leaving.get(at) {
            let odd = odd_link(at, &pair[0], out, &pair[1]);
            // A peering path has a station for each hop.
            let odd = odd.or_else(|| no_peer(at, &pair[0], out).filter(|_| link.is_some_and(|[near, _]| near == at)));
            seen.extend(odd.or_else(|| odd_direction(at, &pair[0], out, cons_dir)));
        }
    }
    sentences(seen)
}

/// By which interface each station but the last is left, and whether in construction direction. A segment's last hop has
/// its station with the next one's first, unless a peering link lies between them.
fn leaving(header: Header<'_>, link: Option<[usize; 2]>) -> Vec<(u16, bool)> {
    let mut leaving = Vec::new();
    for segment in header.segments() {
        let Some(info) = header.own_info(segment.reached) else {
            break;
        };
        let is_left = link.is_some_and(|[near, _]| near == segment.last_hop());
        let hops = (segment.first_hop..segment.last_hop() + usize::from(is_left)).map_while(|index| header.hop(index));
        leaving.extend(hops.map(|hop| (hop.travel(info.cons_dir())[1], info.cons_dir())));
    }
    leaving
}

/// The kind of an interface that a station lists, and whether it is up.
fn kind_and_state(station: &Station, number: u16) -> Option<(&'static str, bool)> {
    let (_, state) = station.interfaces.iter().find(|(listed, _)| *listed == number)?;
    Some((KINDS[usize::from(state % 4)], *state >= 4))
}

/// A packet that turns back, or a link whose two ends do not go together.
fn odd_link(at: usize, from: &Station, out: u16, to: &Station) -> Option<String> {
    if at > 0 && out == from.arrival {
        return Some(format!(
            "station {at} sends the packet back by interface {out}, which it arrived by"
        ));
    }
    let (near, _) = kind_and_state(from, out)?;
    let (far, _) = kind_and_state(to, to.arrival)?;
    let fits = matches!((near, far), ("parent", "child") | ("child", "parent"))
        || near == far && matches!(near, "core" | "peer");
    (!fits).then(|| {
        format!(
            "station {at} leaves by interface {out} ({near}), and station {} arrives by {} ({far}): the kinds do not go \
             together",
            at + 1,
            to.arrival
        )
    })
}

/// A peering link that goes to no peer.
fn no_peer(at: usize, from: &Station, out: u16) -> Option<String> {
    let (kind, _) = kind_and_state(from, out).filter(|(kind, _)| *kind != "peer")?;
    Some(format!(
        "station {at} leaves by interface {out} ({kind}) at the peering link, whose kind is peer"
    ))
}

/// A segment that goes up as if it was constructed so, or down against its construction.
fn odd_direction(at: usize, from: &Station, out: u16, cons_dir: bool) -> Option<String> {
    let (kind, _) = kind_and_state(from, out)?;
    let word = match (kind, cons_dir) {
        ("parent", true) => "yes",
        ("child", false) => "no",
        _ => return None,
    };
    Some(format!(
        "station {at} leaves by interface {out} ({kind}) in a segment with `cons_dir {word}`"
    ))
}

/// Hops whose `out` at a segment change is neither 0 nor where the packet leaves: turned around, question 9 asks for it.
fn no_way_back(header: Header<'_>) -> Vec<String> {
    let out = |segment: &Segment, index: usize| {
        let (info, hop) = (header.own_info(segment.reached)?, header.hop(index)?);
        Some(hop.travel(info.cons_dir())[1])
    };
    let segments = header.segments();
    let changes = segments.windows(2).filter_map(|pair| {
        let last = pair[0].last_hop();
        let (end, leaving) = (out(&pair[0], last)?, out(&pair[1], pair[1].first_hop)?);
        let note = || format!("hop {last} has `out {end}` at a segment change: a reply is turned down there (9)");
        (end != 0 && end != leaving).then(note)
    });
    changes.collect()
}

/// Hops that have a 0 although the path goes on there: inside a segment, or at a peering link.
fn open_hops(header: Header<'_>, link: Option<[usize; 2]>) -> Vec<String> {
    let (near, far) = (link.map(|[near, _]| near), link.map(|[_, far]| far));
    let place = |index: usize, end: usize, at_link: Option<usize>| match at_link {
        Some(hop) if hop == index => Some("at the peering link"),
        _ => (index != end).then_some("inside its segment"),
    };
    let mut open = Vec::new();
    for segment in header.segments() {
        let Some(info) = header.own_info(segment.reached) else {
            break;
        };
        for index in segment.first_hop..=segment.last_hop() {
            let Some(hop) = header.hop(index) else { break };
            let [into, out] = hop.travel(info.cons_dir());
            if let Some(place) = place(index, segment.first_hop, far).filter(|_| into == 0) {
                open.push(format!(
                    "hop {index} has `in 0` {place}, so that it is taken from every interface"
                ));
            }
            if let Some(place) = place(index, segment.last_hop(), near).filter(|_| out == 0) {
                open.push(format!(
                    "hop {index} has `out 0` {place}, so that the packet leaves by an interface 0"
                ));
            }
        }
    }
    open
}
