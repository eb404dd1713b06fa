//! One form for what every call answers.

use std::fmt;

use pocketscion::network::scion::routing::{
    AsRoutingAction, LocalAsRoutingAction,
    spec::{IngressNextAction, standard::StandardRoutingError},
};
use sciparse::{
    dataplane_path::{standard::routing::AdvanceError, types::PathReverseError},
    packet::view::ScionRawPacketView,
    payload::scmp::model::ScmpErrorMessage,
};

/// The numbers of answers that are no refusals; a refusal has the number of its question in the scope, 2 to 22.
pub mod number {
    pub const CONTINUE_EGRESS: u16 = 100;
    pub const FORWARD_NEXT_HOP: u16 = 101;
    pub const FORWARD_LOCAL: u16 = 102;
    pub const INGRESS_SCMP_HANDLE_REQUEST: u16 = 103;
    pub const EGRESS_SCMP_HANDLE_REQUEST: u16 = 104;
    pub const REVERSED: u16 = 110;
    pub const EXPIRATION: u16 = 111;
}

/// An answer: its number, its values in the scope's order with zeros behind them, the SCMP error's type, code and
/// pointer (type 4) or interface (type 5).
#[derive(Debug, Clone, Copy, PartialEq, Eq)]
pub struct Answer {
    pub number: u16,
    pub values: [u64; 4],
    pub scmp: Option<(u8, u8, u32)>,
}

impl Answer {
    pub fn new<const N: usize>(number: u16, values: [u64; N]) -> Self {
        debug_assert_eq!(N, value_count(number));
        let mut four = [0; 4];
        four[..N].copy_from_slice(&values);
        Answer {
            number,
            values: four,
            scmp: None,
        }
    }
}

/// How many values an answer carries.
pub fn value_count(number: u16) -> usize {
    match number {
        2..=4 | 6 | 18 | 20..=22 | number::FORWARD_LOCAL | number::REVERSED => 0,
        5 | 8 | 10 | 11 | 16 => 1,
        7 | 13 | 17 => 2,
        12 | 14 | 15 => 3,
        9 | 19 => 4,
        number::CONTINUE_EGRESS..=number::EXPIRATION => 1,
        _ => panic!("no answer has the number {number}"),
    }
}

/// In the words of models/step.py in crates/run_cases.
impl fmt::Display for Answer {
    fn fmt(&self, f: &mut fmt::Formatter<'_>) -> fmt::Result {
        match self.number {
            number::CONTINUE_EGRESS => f.write_str("ContinueEgress")?,
            number::FORWARD_NEXT_HOP => f.write_str("ForwardNextHop")?,
            number::FORWARD_LOCAL => f.write_str("ForwardLocal")?,
            number::INGRESS_SCMP_HANDLE_REQUEST => f.write_str("IngressSCMPHandleRequest")?,
            number::EGRESS_SCMP_HANDLE_REQUEST => f.write_str("EgressSCMPHandleRequest")?,
            number::REVERSED => f.write_str("Reversed")?,
            number::EXPIRATION => f.write_str("At")?,
            refusal => write!(f, "refused {refusal}")?,
        }
        for value in &self.values[..value_count(self.number)] {
            write!(f, " {value}")?;
        }
        if let Some((kind, code, pointer)) = self.scmp {
            write!(f, ", SCMP {kind} {code} {pointer}")?;
        }
        Ok(())
    }
}

pub(crate) fn of_result(result: Result<Answer, StandardRoutingError>) -> Answer {
    match result {
        Ok(answer) => answer,
        Err(error) => Answer {
            scmp: scmp_of(&error),
            ..of_refusal(&error)
        },
    }
}

pub(crate) fn of_action(action: &AsRoutingAction) -> Answer {
    match *action {
        AsRoutingAction::ForwardNextHop {
            egress_interface_id,
        } => Answer::new(number::FORWARD_NEXT_HOP, [egress_interface_id as u64]),
        AsRoutingAction::Local(ref local) => of_local_action(local),
        ref other => panic!("the step answered {other:?}"),
    }
}

fn of_local_action(action: &LocalAsRoutingAction) -> Answer {
    match *action {
        LocalAsRoutingAction::ForwardLocal => Answer::new(number::FORWARD_LOCAL, []),
        LocalAsRoutingAction::IngressSCMPHandleRequest { interface_id } => {
            Answer::new(number::INGRESS_SCMP_HANDLE_REQUEST, [interface_id as u64])
        }
        LocalAsRoutingAction::EgressSCMPHandleRequest { interface_id } => {
            Answer::new(number::EGRESS_SCMP_HANDLE_REQUEST, [interface_id as u64])
        }
        ref other => panic!("the step answered {other:?}"),
    }
}

pub(crate) fn of_next_action(next: &IngressNextAction) -> Answer {
    match next {
        IngressNextAction::Complete(action) => of_action(action),
        IngressNextAction::ContinueEgress {
            egress_interface_id,
        } => Answer::new(number::CONTINUE_EGRESS, [*egress_interface_id as u64]),
        _ => panic!("ingress answered something new"),
    }
}

pub(crate) fn of_reversal(result: Result<(), PathReverseError>) -> Answer {
    let Err(error) = result else {
        return Answer::new(number::REVERSED, []);
    };
    match &*error.reason {
        "Cannot reverse a path with no segments" => Answer::new(20, []),
        "Current hop field index is out of bounds" => Answer::new(21, []),
        "Current info field index is out of bounds" => Answer::new(22, []),
        other => panic!("no question for the text {other:?}"),
    }
}

fn of_refusal(error: &StandardRoutingError) -> Answer {
    use StandardRoutingError::*;
    match *error {
        AdvanceFailed(ref error) => of_advance_error(error),
        InvalidIngressInterface {
            hop_index,
            expected,
            found,
            cons_dir,
        } => Answer::new(
            9,
            [
                hop_index as u64,
                expected as u64,
                found as u64,
                cons_dir as u64,
            ],
        ),
        FutureTimestamp { hop_index } => Answer::new(10, [hop_index as u64]),
        SegmentExpired { hop_index } => Answer::new(11, [hop_index as u64]),
        InvalidMacError {
            hop_index,
            expected,
            actual,
        } => Answer::new(12, [hop_index as u64, mac(expected), mac(actual)]),
        InvalidScmpAlert {
            hop_index,
            cons_dir,
        } => Answer::new(13, [hop_index as u64, cons_dir as u64]),
        UnknownIngressInterface {
            hop_index,
            if_id,
            cons_dir,
        } => Answer::new(14, [hop_index as u64, if_id as u64, cons_dir as u64]),
        UnknownEgressInterface {
            hop_index,
            if_id,
            cons_dir,
        } => Answer::new(15, [hop_index as u64, if_id as u64, cons_dir as u64]),
        InvalidSegmentChange { hop_index } => Answer::new(16, [hop_index as u64]),
        EgressInterfaceDown { hop_index, if_id } => {
            Answer::new(17, [hop_index as u64, if_id as u64])
        }
        InvalidEgressInterface {
            hop_index,
            expected,
            found,
            cons_dir,
        } => Answer::new(
            19,
            [
                hop_index as u64,
                expected as u64,
                found as u64,
                cons_dir as u64,
            ],
        ),
        ref other => panic!("no question for {other:?}"),
    }
}

fn of_advance_error(error: &AdvanceError) -> Answer {
    match *error {
        AdvanceError::HopOutOfBounds(index) => Answer::new(5, [index as u64]),
        AdvanceError::InfoOutOfBounds(index) => Answer::new(8, [index as u64]),
        AdvanceError::InvalidSegmentIndex { expected, actual } => {
            Answer::new(7, [expected as u64, actual as u64])
        }
        AdvanceError::InvalidPathState("Path contains a segment with a single hop") => {
            Answer::new(6, [])
        }
        AdvanceError::InvalidPathState(
            "Path is at segment end, which must have been handled at ingress",
        ) => Answer::new(18, []),
        ref other => panic!("no question for {other:?}"),
    }
}

fn mac(bytes: [u8; 6]) -> u64 {
    bytes
        .iter()
        .fold(0, |number, byte| number << 8 | *byte as u64)
}

/// Type, code and pointer or interface of the message that the error becomes; the packet that it quotes has no bytes.
fn scmp_of(error: &StandardRoutingError) -> Option<(u8, u8, u32)> {
    let message = error.to_scmp_error(crate::LOCAL_AS, ScionRawPacketView::of(&[]))?;
    let kind = message.message_type().into();
    Some(match message {
        ScmpErrorMessage::ParameterProblem(problem) => {
            (kind, problem.code.into(), problem.pointer as u32)
        }
        // the message has no code of its own; it is encoded as 0
        ScmpErrorMessage::ExternalInterfaceDown(down) => (kind, 0, down.interface_id as u32),
        other => panic!("the step made {other:?}"),
    })
}
