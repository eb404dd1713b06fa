//! The Rattle functions, by the archive of crates/exports.

use oracle::{Answer, Call, Case};
use scion_step_sys::*;

/// The same call as [`Case::run`], on the archive.
pub fn run(case: &Case, path: &mut [u8]) -> Answer {
    let step: ScionStep = match case.call {
        Call::Step => scion_handle_standard_path,
        Call::Ingress => scion_standard_path_ingress,
        Call::Egress => scion_standard_path_egress,
        // SAFETY: pointer and length of a slice that is borrowed for the call
        Call::Reverse => {
            return answer(unsafe { scion_try_reverse(path.as_mut_ptr(), path.len()) });
        }
        // SAFETY: as above
        Call::Expiration => return answer(unsafe { scion_expiration(path.as_ptr(), path.len()) }),
    };
    // SAFETY: pointers and lengths of slices that are borrowed for the call
    answer(unsafe {
        step(
            case.ids.as_ptr(),
            case.ids.len(),
            case.states.as_ptr(),
            case.states.len(),
            path.as_mut_ptr(),
            path.len(),
            case.interface,
            case.now,
            &case.key,
            case.ignore_macs,
        )
    })
}

/// The same in an edition, if the call has editions.
pub fn run_in_edition(is_second: bool, case: &Case, path: &mut [u8]) -> Answer {
    let step: ScionStepInEdition = match case.call {
        Call::Step => scion_handle_standard_path_in_edition,
        Call::Ingress => scion_standard_path_ingress_in_edition,
        Call::Egress => scion_standard_path_egress_in_edition,
        Call::Reverse | Call::Expiration => return run(case, path),
    };
    // SAFETY: pointers and lengths of slices that are borrowed for the call
    answer(unsafe {
        step(
            is_second,
            case.ids.as_ptr(),
            case.ids.len(),
            case.states.as_ptr(),
            case.states.len(),
            path.as_mut_ptr(),
            path.len(),
            case.interface,
            case.now,
            &case.key,
            case.ignore_macs,
        )
    })
}

/// The number of a refusal by 2, 3 or 4, or what the Rust gives.
pub fn segment_index(path: &[u8], hop: u8) -> Result<Option<(usize, bool, bool)>, u16> {
    // SAFETY: pointer and length of a slice that is borrowed for the call
    let reply = unsafe { scion_calculate_segment_index(path.as_ptr(), path.len(), hop) };
    let [index, start, end, _] = reply.values;
    match reply.number {
        SCION_SEGMENT_INDEX => Ok(Some((index as usize, start == 1, end == 1))),
        SCION_HOP_OUT_OF_BOUNDS => {
            assert!(reply.count == 1 && index == u64::from(hop));
            Ok(None)
        }
        number => Err(number),
    }
}

/// Passed, not passed, or the number of a refusal.
pub fn check_journey(path: &[u8], itinerary: &[u8], earliest: u32, latest: u32) -> u16 {
    // SAFETY: pointers and lengths of slices that are borrowed for the call
    unsafe {
        scion_check_journey(
            path.as_ptr(),
            path.len(),
            itinerary.as_ptr(),
            itinerary.len(),
            earliest,
            latest,
        )
    }
    .number
}

/// The same in an edition.
pub fn check_journey_in_edition(
    is_second: bool,
    path: &[u8],
    itinerary: &[u8],
    earliest: u32,
    latest: u32,
) -> u16 {
    // SAFETY: pointers and lengths of slices that are borrowed for the call
    unsafe {
        scion_check_journey_in_edition(
            is_second,
            path.as_ptr(),
            path.len(),
            itinerary.as_ptr(),
            itinerary.len(),
            earliest,
            latest,
        )
    }
    .number
}

pub fn hop_mac(
    segment_id: u16,
    timestamp: u32,
    exp_time: u8,
    cons_ingress: u16,
    cons_egress: u16,
    key: &[u8; 16],
) -> [u8; 6] {
    let mut mac = [0; 6];
    // SAFETY: `key` and `mac` are arrays that are borrowed for the call
    unsafe {
        scion_calculate_hop_mac(
            segment_id,
            timestamp,
            exp_time,
            cons_ingress,
            cons_egress,
            key,
            &mut mac,
        )
    };
    mac
}

pub fn aes_cmac(key: &[u8; 16], message: &[u8]) -> [u8; 16] {
    let mut mac = [0; 16];
    // SAFETY: pointers and lengths of what is borrowed for the call
    unsafe { scion_aes_cmac(key, message.as_ptr(), message.len(), &mut mac) };
    mac
}

fn answer(reply: ScionReply) -> Answer {
    let scmp =
        (reply.scmp_type != 0).then_some((reply.scmp_type, reply.scmp_code, reply.scmp_pointer));
    Answer {
        number: reply.number,
        values: reply.values,
        scmp,
    }
}
