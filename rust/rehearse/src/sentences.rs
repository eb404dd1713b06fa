//! What each number of a refusal says, and what to do about it. docs/GUIDE.md has the same words in a table.

use crate::header::Header;
use crate::json::Json;
use standard_path::Edition;

/// A question of the scope document that was answered no.
pub struct Question {
    /// The scope document's words, or what they refer to.
    pub asked: &'static str,
    /// What a no means.
    pub no: &'static str,
    /// What to do about it.
    pub advice: &'static str,
}

const fn question(asked: &'static str, no: &'static str, advice: &'static str) -> Question {
    Question { asked, no, advice }
}

const QUESTIONS: [Question; 25] = [
    question(
        "Interface table sound?",
        "The interface table is not sound: ascending numbers, each once, states 0 to 7, at most 256 interfaces.",
        "List the interfaces in ascending order of their numbers, each number once, each state from 0 to 7, at most 256 of them.",
    ),
    question(
        "At least 4 bytes?",
        "The path is shorter than the 4 bytes of its meta word.",
        "Check that it is the right file and that all of the header was written to it.",
    ),
    question(
        "At least 4 + 8 × infos + 12 × hops?",
        "The path ends before the last field that its three lengths announce.",
        "Add the missing bytes or correct the lengths; `rehearse show` says where the header ends.",
    ),
    question(
        "At most 64 hops?",
        "The three lengths add up to more than 64 hops.",
        "Take hops out of the segments until there are 64 or fewer.",
    ),
    question(
        "CurrHF below the hop count?",
        "CurrHF names a hop that the path does not have.",
        "Set CurrHF to a hop of the path, counted from 0.",
    ),
    question(
        "More than one hop in this segment?",
        "The current segment has one hop only.",
        "Give each segment at least two hops.",
    ),
    question(
        "CurrINF equal to the segment index?",
        "CurrINF names another segment than the one that CurrHF lies in.",
        "Set CurrINF to the segment of CurrHF, counted from 0, and leave no empty segment before a used one.",
    ),
    question(
        "Info field there, and at a segment change the next one?",
        "The header has no info field for the segment that the step needs.",
        "Put the used segments first and the empty ones last.",
    ),
    question(
        "Interface 0, or travel ingress 0, or both equal?",
        "The packet came in by another interface than the hop names.",
        "Look at the order of hops and stations (in a step at `--station`), and whether `in` and `out` are exchanged; correct \
         the hop and sign again, or correct the interface that the packet arrives by.",
    ),
    question(
        "Timestamp at most now?",
        "The segment's timestamp is later than the reading of the clock.",
        "Check the clock, or take a timestamp that is no later than its earliest reading and sign again.",
    ),
    question(
        "Expiry at least now?",
        "The hop has expired: it ends before the reading of the clock.",
        "Let the hop last longer (24 hours at most) and sign again, or ask for an earlier reading; a later timestamp helps as \
         long as it is no later than the earliest reading.",
    ),
    question(
        "MAC right, or MACs ignored?",
        "The hop's MAC is not the one that the key gives for its fields and the SegID.",
        "Compare key and interface (or `--station`) with the station that the path has come to, and take the path as the station before it forwarded it; if \
         that is so, sign it at its start (`curr_hf 0`, hops without `mac`) and walk it again from the first station.",
    ),
    question(
        "No travel-egress alert here, no travel-ingress alert on the next hop?",
        "An alert is set between the two hops of a segment change, where no router answers it.",
        "Take away `alert egress` from the segment's last hop and `alert ingress` from the next one's first.",
    ),
    question(
        "Travel ingress listed?",
        "At the segment change the interface that the packet comes in by is not in the table.",
        "Look at the order of hops, segments and stations; add the interface to the station, or correct the hop's `in` and \
         sign again.",
    ),
    question(
        "Next travel egress listed?",
        "At the segment change the interface to leave by is not in the table.",
        "Look at the order of hops, segments and stations; add the interface to the station, or correct the `out` of the next \
         segment's first hop and sign again.",
    ),
    question(
        "Pair core-child, child-core, child-child, child-peer or peer-child?",
        "The kinds of the two links before and behind the segment change do not go together.",
        "Change segments where one of the links goes to a child and the other to a core, a child or a peer; check their kinds.",
    ),
    question(
        "Up?",
        "The interface to leave by is down.",
        "Take a path that leaves by another interface, or set the interface up in the table or plan once it is.",
    ),
    question(
        "Segment going on?",
        "The segment ends at this hop, so that the packet can't leave by it.",
        "Run ingress first, which changes to the next segment; each segment needs at least two hops.",
    ),
    question(
        "Travel egress the one given?",
        "The packet is to leave by another interface than the hop names.",
        "Call egress with the interface that ingress answered, or correct the hop's `out` and sign again.",
    ),
    question(
        "First length not 0?",
        "The first length is 0.",
        "Put the used segments first; a path without a hop can't be turned around.",
    ),
    question(
        "CurrHF below the hop count?",
        "The path that is to be turned around stands at a hop that it does not have.",
        "Set CurrHF to a hop of the path.",
    ),
    question(
        "CurrINF below the used segments?",
        "The path that is to be turned around stands at a segment that it does not have.",
        "Set CurrINF to a used segment, counted from 0, and leave no empty segment before a used one.",
    ),
    question(
        "Itinerary sound, each table too, station count = hops − infos + 1, first arrival 0, later ones not, earliest at most latest?",
        "The plan is not sound, does not fit the path, or the readings are out of order.",
        "Add the hop that the path lacks, or correct the plan: one station for each hop, but one for the two hops of a segment \
         change, arrival 0 at the first station only, interfaces in ascending order, each number once, with states 0 to 7, at \
         most 63 stations; and no earliest reading after the latest.",
    ),
    question(
        "CurrHF and CurrINF 0?",
        "The path does not stand at its start.",
        "Take the path as its source sends it, CurrHF and CurrINF 0; for the way back, turn it around where it was delivered \
         (`rehearse reverse`). Setting them to 0 does not take back what the stations on its way have done to its SegIDs.",
    ),
    question(
        "No alert bit in a hop?",
        "A hop has an alert, and a journey is checked without alerts.",
        "Take away the alerts and sign again.",
    ),
];

const MISPLACED_PEERING: Question = question(
    "P in no info field, or a peering path?",
    "P is set in an info field, and the path is no peering path: that has P in both info fields, and hops in its first two \
     segments alone.",
    "Write `peering yes` in both segments of a path of two, or in no segment, and sign again with `--edition 2`.",
);

// ---- numbers with more than one question, or more than one thing to do

const NO_HOP: Question = question(
    "CurrHF below the hop count?",
    "The path has no hop.",
    "Give the path a segment with at least two hops.",
);

const ANOTHER_HOP: Question = question(
    "Another hop after this one?",
    "The path ends at this hop, so that the packet can't leave by it.",
    "Call egress only before the path's last hop, and give each segment at least two hops.",
);

const LAST_SEGMENT_OF_ONE: Question = question(
    "Another hop after this one?",
    "The path's last segment has one hop only, so that the packet can't leave by it.",
    "Give each segment at least two hops.",
);

const EMPTY_SEGMENT: Question = question(
    "CurrINF equal to the segment index?",
    "CurrINF names another segment than the one that CurrHF lies in, and an empty segment stands before a used one.",
    "Leave no empty segment before a used one, and set CurrINF to the segment of CurrHF, counted from 0.",
);

const FIRST_OF_SEGMENT: Question = question(
    "Interface 0, or travel ingress 0, or both equal?",
    "At the segment change the next segment's first hop names another interface than the packet came in by.",
    "Write `in 0` for a segment's first hop and sign again.",
);

const SEGMENT_OF_ONE: Question = question(
    "Segment going on?",
    "The segment that the path has changed to has one hop only, so that the packet can't leave by it.",
    "Give each segment at least two hops.",
);

const EGRESS_LISTED: Question = question(
    "Egress listed?",
    "The interface to leave by is not in the station's table.",
    "Look at the order of hops, segments and stations; add the interface to the station, or correct the hop's `out` and \
     sign again.",
);

const NO_INGRESS: Question = question(
    "Travel ingress listed?",
    "At the segment change the hop names no interface to come in by: its `in` is 0.",
    "0 is for an end of a segment: check the order of the hops and the `in` of the segment's last, and sign again.",
);

const NO_NEXT_EGRESS: Question = question(
    "Next travel egress listed?",
    "At the segment change the next hop names no interface to leave by: its `out` is 0.",
    "0 is for an end of a segment: check the order of the hops and the `out` of the next segment's first, and sign again.",
);

const NO_EGRESS: Question = question(
    "Egress listed?",
    "The hop names no interface to leave by: its `out` is 0.",
    "0 is for an end of a segment: check the order of the hops and their `out`, and sign again.",
);

const MAC_AT_EGRESS: Question = question(
    "MAC right, or MACs ignored?",
    "The hop's MAC is not the one that the key gives for its fields and the SegID.",
    "Compare the key with the station's, and take the path as ingress left it; if that is so, sign it at its start \
     (`curr_hf 0`, hops without `mac`) and walk it again from the first station.",
);

const MAC_BEHIND_GAP: Question = question(
    "MAC right, or MACs ignored?",
    "The hop's MAC is not the one that the key gives, and an empty segment stands before a used one: the step may take another \
     info field than the one that was signed with.",
    "Leave no empty segment before a used one, and sign again.",
);

const MAC_IN_JOURNEY: Question = question(
    "MAC right, or MACs ignored?",
    "The hop's MAC is not the one that the station's key gives for its fields and the SegID.",
    "Compare the plan, its keys and the order of its stations with what the path was signed with; a path of your own can be \
     signed again with this plan (`rehearse sign TEXT --plan PLAN`), its hops without `mac`.",
);

const PEERING_PLAN: Question = question(
    "Itinerary sound, each table too, station count = hops, first arrival 0, later ones not, earliest at most latest?",
    "The plan is not sound, does not fit the path over a peering link, or the readings are out of order.",
    "Add the hop that the path lacks, or correct the plan: one station for each hop, each of the two at the peering link too, \
     arrival 0 at the first station only, interfaces in ascending order, each number once, with states 0 to 7, at most 64 \
     stations; and no earliest reading after the latest.",
);

/// Which call gave an answer.
#[derive(Clone, Copy, PartialEq, Eq)]
pub enum Call {
    Step,
    Ingress,
    Egress,
    /// The whole step, at a station of a journey.
    Journey,
}

/// The question behind a refusal. Which of a number's questions it is, is seen in the values and the path left.
pub fn of_call(
    (call, edition): (Call, Edition),
    number: u16,
    values: &[(&'static str, Json)],
    left: &[u8],
) -> Option<&'static Question> {
    let value = |name: &str| values.iter().find(|(value, _)| *value == name).map(|(_, value)| value);
    let (header, curr_hf) = (Header(left), u64::from(Header(left).curr_hf()));
    let is_zero = value("interface") == Some(&Json::Number(0));
    // At a segment change the path has moved on from the hop that is named.
    let is_current = value("hop_index") == Some(&Json::Number(curr_hf));
    let is_next = value("index") == Some(&Json::Number(curr_hf + 1));
    let segments = header.segments();
    let mut later = segments.iter().skip(1).map(|segment| Json::number(segment.first_hop));
    // Over a peering link no segment changes.
    let starts_segment = !header.is_peering_path(edition) && later.any(|first| value("hop_index") == Some(&first));
    let is_alone = segments
        .iter()
        .any(|segment| segment.hops == 1 && segment.first_hop as u64 == curr_hf);
    match (number, call) {
        (5, _) if header.hops() == 0 => Some(&NO_HOP),
        (5, Call::Egress) if is_next => Some(&ANOTHER_HOP),
        // Ingress delivers at the path's last hop, so that the whole step came here by a segment change.
        (5, _) if is_next => Some(&LAST_SEGMENT_OF_ONE),
        (7, _) if header.has_gap() => Some(&EMPTY_SEGMENT),
        (9, _) if starts_segment => Some(&FIRST_OF_SEGMENT),
        (12, _) if header.has_gap() => Some(&MAC_BEHIND_GAP),
        (12, Call::Egress) => Some(&MAC_AT_EGRESS),
        (12, Call::Journey) => Some(&MAC_IN_JOURNEY),
        (14, _) if is_zero => Some(&NO_INGRESS),
        (15, _) if is_current => Some(if is_zero { &NO_EGRESS } else { &EGRESS_LISTED }),
        (15, _) if is_zero => Some(&NO_NEXT_EGRESS),
        (18, _) if is_alone => Some(&SEGMENT_OF_ONE),
        _ => of_number(number),
    }
}

/// The question behind a refusal of a journey.
pub fn of_check(edition: Edition, number: u16, path: &[u8]) -> Option<&'static Question> {
    match number {
        23 if Header(path).is_peering_path(edition) => Some(&PEERING_PLAN),
        _ => of_number(number),
    }
}

/// The question with a number, if it is one of 1 to 25 or 28.
pub fn of_number(number: u16) -> Option<&'static Question> {
    match number {
        28 => Some(&MISPLACED_PEERING),
        _ => QUESTIONS.get(usize::from(number).checked_sub(1)?),
    }
}

/// The questions beside these, by number.
const OTHERS: [(u16, &Question); 14] = [
    (5, &NO_HOP),
    (5, &ANOTHER_HOP),
    (5, &LAST_SEGMENT_OF_ONE),
    (7, &EMPTY_SEGMENT),
    (9, &FIRST_OF_SEGMENT),
    (12, &MAC_BEHIND_GAP),
    (12, &MAC_AT_EGRESS),
    (12, &MAC_IN_JOURNEY),
    (14, &NO_INGRESS),
    (15, &NO_NEXT_EGRESS),
    (15, &EGRESS_LISTED),
    (15, &NO_EGRESS),
    (18, &SEGMENT_OF_ONE),
    (23, &PEERING_PLAN),
];

/// All that a number can mean.
pub fn all_of(number: u16) -> Vec<&'static Question> {
    let others = OTHERS
        .iter()
        .filter(|(other, _)| *other == number)
        .map(|(_, question)| *question);
    of_number(number).into_iter().chain(others).collect()
}

#[cfg(test)]
mod tests {
    use super::*;

    #[test]
    fn the_guide_has_the_same_words() {
        let guide = include_str!("../../../docs/GUIDE.md");
        for &number in standard_path::REFUSALS {
            for Question { asked, no, advice } in all_of(number) {
                let row = format!("| {number} | {asked} | {no} | {advice} |");
                assert!(
                    guide.lines().any(|line| line == row),
                    "docs/GUIDE.md lacks the row\n{row}"
                );
            }
        }
        let is_row = |line: &&str| {
            line.split(" | ").count() == 4
                && line
                    .trim_start_matches("| ")
                    .starts_with(|letter: char| letter.is_ascii_digit())
        };
        let rows = standard_path::REFUSALS.len() + OTHERS.len();
        assert_eq!(guide.lines().filter(is_row).count(), rows);
        let has_question = |number: &u16| of_number(*number).is_some();
        assert_eq!(
            (0..=130).filter(has_question).collect::<Vec<_>>(),
            standard_path::REFUSALS
        );
    }
}
