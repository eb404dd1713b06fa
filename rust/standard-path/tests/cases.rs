//! The calls of `crates/run_cases` once more, from Rust, in both editions.

#[path = "../../../crates/run_cases/cases.rs"]
#[rustfmt::skip]
mod cases;

use cases::Case;
use standard_path::{
    expiration, try_reverse, AdvanceError, AsRoutingAction, Edition, IngressNextAction, Interfaces,
    LocalAsRoutingAction, Refusal, ScionNetworkTime, ScmpError, StandardRoutingError,
};

fn action_text(action: AsRoutingAction) -> String {
    let number = action.number();
    match action {
        AsRoutingAction::Local(LocalAsRoutingAction::ForwardLocal) => number.to_string(),
        AsRoutingAction::ForwardNextHop {
            egress_interface_id: id,
        }
        | AsRoutingAction::Local(
            LocalAsRoutingAction::IngressSCMPHandleRequest { interface_id: id }
            | LocalAsRoutingAction::EgressSCMPHandleRequest { interface_id: id },
        ) => format!("{number} {id}"),
    }
}

fn ingress_text(action: IngressNextAction) -> String {
    match action {
        IngressNextAction::ContinueEgress { egress_interface_id } => {
            format!("{} {egress_interface_id}", action.number())
        }
        IngressNextAction::Complete(action) => action_text(action),
    }
}

fn mac_number(mac: [u8; 6]) -> u64 {
    mac.iter().fold(0, |number, &byte| number << 8 | u64::from(byte))
}

/// A refusal's values in the scope document's order.
fn values(error: StandardRoutingError) -> Vec<u64> {
    use StandardRoutingError::*;
    match error {
        UnsoundTable | MetaTooShort | DataTooShort | TooManyHops => vec![],
        AdvanceFailed(AdvanceError::SingleHopSegment | AdvanceError::SegmentEnd | AdvanceError::MisplacedPeering) => {
            vec![]
        }
        AdvanceFailed(AdvanceError::HopOutOfBounds(index) | AdvanceError::InfoOutOfBounds(index)) => {
            vec![index.into()]
        }
        AdvanceFailed(AdvanceError::InvalidSegmentIndex { expected, actual }) => vec![expected as u64, actual as u64],
        InvalidIngressInterface {
            hop_index,
            expected,
            found,
            cons_dir,
        }
        | InvalidEgressInterface {
            hop_index,
            expected,
            found,
            cons_dir,
        } => {
            vec![hop_index as u64, expected.into(), found.into(), cons_dir.into()]
        }
        FutureTimestamp { hop_index } | SegmentExpired { hop_index } | InvalidSegmentChange { hop_index } => {
            vec![hop_index as u64]
        }
        UnknownIngressInterface {
            hop_index,
            if_id,
            cons_dir,
        }
        | UnknownEgressInterface {
            hop_index,
            if_id,
            cons_dir,
        } => {
            vec![hop_index as u64, if_id.into(), cons_dir.into()]
        }
        InvalidMacError {
            hop_index,
            expected,
            actual,
        } => {
            vec![hop_index as u64, mac_number(expected), mac_number(actual)]
        }
        EgressInterfaceDown { hop_index, if_id } => vec![hop_index as u64, if_id.into()],
        InvalidScmpAlert { hop_index, cons_dir } => vec![hop_index as u64, cons_dir.into()],
        _ => panic!("the model has no such refusal: {error:?}"),
    }
}

fn refusal_text(refusal: Refusal) -> String {
    let mut text = refusal.number().to_string();
    for value in values(refusal.error) {
        text += &format!(" {value}");
    }
    if let Some(scmp) = refusal.to_scmp_error() {
        let last = match scmp {
            ScmpError::ParameterProblem { pointer, .. } => pointer,
            ScmpError::ExternalInterfaceDown { interface_id } => interface_id.into(),
        };
        text += &format!(", SCMP {} {} {last}", scmp.scmp_type(), scmp.code());
    }
    text
}

fn edition(case: &Case) -> Edition {
    match case.edition {
        1 => Edition::First,
        2 => Edition::Second,
        other => panic!("no edition has the number {other}"),
    }
}

fn step_text(case: &Case, path: &mut [u8]) -> String {
    let (ids, edition, key) = (case.ids(), edition(case), &case.key());
    let interfaces = Interfaces {
        ids: &ids,
        states: &case.states,
    };
    let interface = case.first.try_into().unwrap();
    let time = ScionNetworkTime::from_timestamp_secs(case.second);
    let ignore_macs = case.ignore_macs;
    match case.call {
        "ingress" => edition
            .standard_path_ingress(path, interface, time, key, interfaces, ignore_macs)
            .map(ingress_text),
        "egress" => edition
            .standard_path_egress(path, interface, time, key, interfaces, ignore_macs)
            .map(action_text),
        "step" => edition
            .handle_standard_path(path, interface, time, key, interfaces, ignore_macs)
            .map(action_text),
        call => panic!("no call is named {call}"),
    }
    .unwrap_or_else(refusal_text)
}

fn journey_number(case: &Case) -> u16 {
    let [earliest, latest] = [case.first, case.second].map(ScionNetworkTime::from_timestamp_secs);
    match edition(case).check_journey(&case.path, &case.itinerary, earliest, latest) {
        Ok(verdict) => verdict.number(),
        Err(error) => error.number(),
    }
}

fn answer(case: &Case, path: &mut [u8]) -> String {
    match case.call {
        "reverse" => match try_reverse(path) {
            Ok(()) => "110".into(),
            Err(error) => error.number().to_string(),
        },
        "expiration" => match expiration(path) {
            Ok(time) => format!("111 {time}"),
            Err(error) => error.number().to_string(),
        },
        "journey" => journey_number(case).to_string(),
        _ => step_text(case, path),
    }
}

#[test]
fn each_case_answers_as_expected() {
    let mut tried = 0;
    cases::each(|case, expected, left| {
        if case.call == "index" {
            return;
        }
        let mut path = case.path.clone();
        let answer = answer(case, &mut path);
        assert_eq!(
            (&answer[..], &path[..]),
            (expected, left),
            "{}, {}",
            case.call,
            case.label
        );
        tried += 1;
    });
    assert!(tried > 2000, "{tried}");
}
