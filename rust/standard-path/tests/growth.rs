//! Enums that will grow leave room for what is not known yet: else the last arms here could not be reached.
#![deny(unreachable_patterns)]

use standard_path::{AdvanceError, JourneyError, StandardRoutingError};

fn advance(error: AdvanceError) -> &'static str {
    use AdvanceError::*;
    match error {
        HopOutOfBounds(_)
        | InfoOutOfBounds(_)
        | InvalidSegmentIndex { .. }
        | SingleHopSegment
        | SegmentEnd
        | MisplacedPeering => "known",
        _ => "later",
    }
}

fn refusal(error: StandardRoutingError) -> &'static str {
    use StandardRoutingError::*;
    match error {
        AdvanceFailed(why) => advance(why),
        UnsoundTable
        | MetaTooShort
        | DataTooShort
        | TooManyHops
        | InvalidIngressInterface { .. }
        | InvalidEgressInterface { .. }
        | FutureTimestamp { .. }
        | SegmentExpired { .. }
        | UnknownIngressInterface { .. }
        | UnknownEgressInterface { .. }
        | InvalidMacError { .. }
        | InvalidSegmentChange { .. }
        | EgressInterfaceDown { .. }
        | InvalidScmpAlert { .. } => "known",
        _ => "later",
    }
}

fn journey(error: JourneyError) -> &'static str {
    use JourneyError::*;
    match error {
        MetaTooShort | DataTooShort | TooManyHops | UnfitItinerary | NotAtStart | AlertSet => "known",
        _ => "later",
    }
}

#[test]
fn what_is_there_is_known() {
    assert_eq!(refusal(StandardRoutingError::UnsoundTable), "known");
    assert_eq!(refusal(AdvanceError::SegmentEnd.into()), "known");
    assert_eq!(journey(JourneyError::AlertSet), "known");
}
