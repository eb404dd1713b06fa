//! Replies of the archive as answers. Each function takes every reply that the contract of its call allows; that no
//! other comes is proved there, so that another one is a fault of this crate or of the archive and ends the program.

use crate::{
    AdvanceError, AsRoutingAction, HeaderError, IngressNextAction, JourneyError, LocalAsRoutingAction,
    PathReverseError, Refusal, ScmpError, SegmentIndex, StandardRoutingError, Verdict,
};
use scion_step_sys::{ScionReply as Reply, *};

fn ruled_out(reply: Reply) -> ! {
    unreachable!("the archive gave a reply that its contract rules out: {reply:?}")
}

/// What a value stands for.
trait Values {
    /// A number that fits in a smaller type.
    fn value<T: TryFrom<u64>>(self, at: usize) -> T;

    fn flag(self, at: usize) -> bool;

    /// A number of 48 bits.
    fn mac(self, at: usize) -> [u8; 6];
}

impl Values for Reply {
    fn value<T: TryFrom<u64>>(self, at: usize) -> T {
        T::try_from(self.values[at]).unwrap_or_else(|_| ruled_out(self))
    }

    fn flag(self, at: usize) -> bool {
        match self.values[at] {
            0 => false,
            1 => true,
            _ => ruled_out(self),
        }
    }

    fn mac(self, at: usize) -> [u8; 6] {
        match self.values[at].to_be_bytes() {
            [0, 0, mac @ ..] => mac,
            _ => ruled_out(self),
        }
    }
}

fn action(reply: Reply) -> Option<AsRoutingAction> {
    let interface_id = || reply.value(0);
    Some(match reply.number {
        SCION_FORWARD_NEXT_HOP => AsRoutingAction::ForwardNextHop {
            egress_interface_id: interface_id(),
        },
        SCION_FORWARD_LOCAL => LocalAsRoutingAction::ForwardLocal.into(),
        SCION_INGRESS_SCMP_HANDLE_REQUEST => LocalAsRoutingAction::IngressSCMPHandleRequest {
            interface_id: interface_id(),
        }
        .into(),
        SCION_EGRESS_SCMP_HANDLE_REQUEST => LocalAsRoutingAction::EgressSCMPHandleRequest {
            interface_id: interface_id(),
        }
        .into(),
        _ => return None,
    })
}

fn error(reply: Reply) -> StandardRoutingError {
    let hop_index = || reply.value(0);
    match reply.number {
        SCION_UNSOUND_TABLE => StandardRoutingError::UnsoundTable,
        SCION_META_TOO_SHORT => StandardRoutingError::MetaTooShort,
        SCION_DATA_TOO_SHORT => StandardRoutingError::DataTooShort,
        SCION_TOO_MANY_HOPS => StandardRoutingError::TooManyHops,
        SCION_HOP_OUT_OF_BOUNDS => AdvanceError::HopOutOfBounds(reply.value(0)).into(),
        SCION_SINGLE_HOP_SEGMENT => AdvanceError::SingleHopSegment.into(),
        SCION_INVALID_SEGMENT_INDEX => AdvanceError::InvalidSegmentIndex {
            expected: reply.value(0),
            actual: reply.value(1),
        }
        .into(),
        SCION_INFO_OUT_OF_BOUNDS => AdvanceError::InfoOutOfBounds(reply.value(0)).into(),
        SCION_INVALID_INGRESS_INTERFACE => StandardRoutingError::InvalidIngressInterface {
            hop_index: hop_index(),
            expected: reply.value(1),
            found: reply.value(2),
            cons_dir: reply.flag(3),
        },
        SCION_FUTURE_TIMESTAMP => StandardRoutingError::FutureTimestamp { hop_index: hop_index() },
        SCION_SEGMENT_EXPIRED => StandardRoutingError::SegmentExpired { hop_index: hop_index() },
        SCION_INVALID_MAC_ERROR => StandardRoutingError::InvalidMacError {
            hop_index: hop_index(),
            expected: reply.mac(1),
            actual: reply.mac(2),
        },
        SCION_INVALID_SCMP_ALERT => StandardRoutingError::InvalidScmpAlert {
            hop_index: hop_index(),
            cons_dir: reply.flag(1),
        },
        SCION_UNKNOWN_INGRESS_INTERFACE => StandardRoutingError::UnknownIngressInterface {
            hop_index: hop_index(),
            if_id: reply.value(1),
            cons_dir: reply.flag(2),
        },
        SCION_UNKNOWN_EGRESS_INTERFACE => StandardRoutingError::UnknownEgressInterface {
            hop_index: hop_index(),
            if_id: reply.value(1),
            cons_dir: reply.flag(2),
        },
        SCION_INVALID_SEGMENT_CHANGE => StandardRoutingError::InvalidSegmentChange { hop_index: hop_index() },
        SCION_EGRESS_INTERFACE_DOWN => StandardRoutingError::EgressInterfaceDown {
            hop_index: hop_index(),
            if_id: reply.value(1),
        },
        SCION_SEGMENT_END => AdvanceError::SegmentEnd.into(),
        SCION_MISPLACED_PEERING => AdvanceError::MisplacedPeering.into(),
        SCION_INVALID_EGRESS_INTERFACE => StandardRoutingError::InvalidEgressInterface {
            hop_index: hop_index(),
            expected: reply.value(1),
            found: reply.value(2),
            cons_dir: reply.flag(3),
        },
        _ => ruled_out(reply),
    }
}

fn refusal(reply: Reply) -> Refusal {
    let scmp = match reply.scmp_type {
        0 => None,
        4 => Some(ScmpError::ParameterProblem {
            code: reply.scmp_code,
            pointer: reply.scmp_pointer,
        }),
        5 => Some(ScmpError::ExternalInterfaceDown {
            interface_id: u16::try_from(reply.scmp_pointer).unwrap_or_else(|_| ruled_out(reply)),
        }),
        _ => ruled_out(reply),
    };
    Refusal {
        error: error(reply),
        scmp,
    }
}

/// Of the egress half and of the whole step.
pub(crate) fn step(reply: Reply) -> Result<AsRoutingAction, Refusal> {
    action(reply).ok_or_else(|| refusal(reply))
}

pub(crate) fn ingress(reply: Reply) -> Result<IngressNextAction, Refusal> {
    if reply.number == SCION_CONTINUE_EGRESS {
        return Ok(IngressNextAction::ContinueEgress {
            egress_interface_id: reply.value(0),
        });
    }
    step(reply).map(IngressNextAction::Complete)
}

pub(crate) fn reversal(reply: Reply) -> Result<(), PathReverseError> {
    match reply.number {
        SCION_REVERSED => Ok(()),
        SCION_META_TOO_SHORT => Err(PathReverseError::MetaTooShort),
        SCION_DATA_TOO_SHORT => Err(PathReverseError::DataTooShort),
        SCION_TOO_MANY_HOPS => Err(PathReverseError::TooManyHops),
        SCION_NO_SEGMENTS => Err(PathReverseError::NoSegments),
        SCION_REVERSE_HOP_OUT_OF_BOUNDS => Err(PathReverseError::HopOutOfBounds),
        SCION_REVERSE_INFO_OUT_OF_BOUNDS => Err(PathReverseError::InfoOutOfBounds),
        _ => ruled_out(reply),
    }
}

/// 2, 3 or 4, of a call that has no other error.
fn header_error(reply: Reply) -> HeaderError {
    match reply.number {
        SCION_META_TOO_SHORT => HeaderError::MetaTooShort,
        SCION_DATA_TOO_SHORT => HeaderError::DataTooShort,
        SCION_TOO_MANY_HOPS => HeaderError::TooManyHops,
        _ => ruled_out(reply),
    }
}

pub(crate) fn expiration(reply: Reply) -> Result<u32, HeaderError> {
    match reply.number {
        SCION_EXPIRATION => Ok(reply.value(0)),
        _ => Err(header_error(reply)),
    }
}

pub(crate) fn segment_index(reply: Reply) -> Result<SegmentIndex, HeaderError> {
    match reply.number {
        SCION_SEGMENT_INDEX => Ok(SegmentIndex::At {
            index: reply.value(0),
            start: reply.flag(1),
            end: reply.flag(2),
        }),
        SCION_HOP_OUT_OF_BOUNDS => Ok(SegmentIndex::OutOfBounds),
        _ => Err(header_error(reply)),
    }
}

pub(crate) fn journey(reply: Reply) -> Result<Verdict, JourneyError> {
    match reply.number {
        SCION_PASSED => Ok(Verdict::Passed),
        SCION_NOT_PASSED => Ok(Verdict::NotPassed),
        SCION_META_TOO_SHORT => Err(JourneyError::MetaTooShort),
        SCION_DATA_TOO_SHORT => Err(JourneyError::DataTooShort),
        SCION_TOO_MANY_HOPS => Err(JourneyError::TooManyHops),
        SCION_UNFIT_ITINERARY => Err(JourneyError::UnfitItinerary),
        SCION_NOT_AT_START => Err(JourneyError::NotAtStart),
        SCION_ALERT_SET => Err(JourneyError::AlertSet),
        _ => ruled_out(reply),
    }
}

#[cfg(test)]
mod tests {
    use super::*;
    use std::panic;

    fn reply(number: u16) -> Reply {
        Reply {
            number,
            count: 0,
            values: [0; 4],
            scmp_type: 0,
            scmp_code: 0,
            scmp_pointer: 0,
        }
    }

    #[test]
    fn each_number_is_kept() {
        for number in 1..=19 {
            assert_eq!(step(reply(number)).unwrap_err().number(), number);
        }
        for number in 101..=104 {
            assert_eq!(step(reply(number)).unwrap().number(), number);
        }
        for number in 100..=104 {
            assert_eq!(ingress(reply(number)).unwrap().number(), number);
        }
        for number in [2, 3, 4, 20, 21, 22] {
            assert_eq!(reversal(reply(number)).unwrap_err().number(), number);
        }
        for number in [2, 3, 4] {
            assert_eq!(expiration(reply(number)).unwrap_err().number(), number);
            assert_eq!(segment_index(reply(number)).unwrap_err().number(), number);
        }
        for number in [2, 3, 4, 23, 24, 25] {
            assert_eq!(journey(reply(number)).unwrap_err().number(), number);
        }
        for number in [120, 121] {
            assert_eq!(journey(reply(number)).unwrap().number(), number);
        }
        for number in [5, 112] {
            assert_eq!(segment_index(reply(number)).unwrap().number(), number);
        }
    }

    #[test]
    fn all_refusals_are_known_by_their_numbers() {
        let calls: [fn(Reply) -> bool; 5] = [
            |reply| ingress(reply).is_err(),
            |reply| reversal(reply).is_err(),
            |reply| expiration(reply).is_err(),
            |reply| journey(reply).is_err(),
            |reply| !matches!(segment_index(reply), Ok(SegmentIndex::At { .. })),
        ];
        let refuses = |call: &fn(Reply) -> bool, number| panic::catch_unwind(|| call(reply(number))).unwrap_or(false);
        // A panic says that a number is not taken, without a message.
        let hook = panic::take_hook();
        panic::set_hook(Box::new(|_| {}));
        let is_refusal = |&number: &u16| calls.iter().any(|call| refuses(call, number));
        let refusals: Vec<u16> = (0..100).filter(is_refusal).collect();
        panic::set_hook(hook);
        assert_eq!(refusals, crate::REFUSALS);
    }

    #[test]
    #[should_panic(expected = "a reply that its contract rules out")]
    fn no_other_number_is_taken() {
        let _ = step(reply(20));
    }

    #[test]
    #[should_panic(expected = "a reply that its contract rules out")]
    fn no_value_is_cut() {
        let _ = step(Reply {
            values: [65536, 0, 0, 0],
            ..reply(101)
        });
    }
}
