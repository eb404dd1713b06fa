//! The calls into the archive: the only unsafe code of this crate.
//!
//! Each call takes any bytes, any numbers and any lengths; it trusts its caller only for the pointers. Here they come from
//! references, so that they are valid, aligned, and `path` overlaps nothing. An empty slice comes as a dangling pointer
//! with length 0: the archive reads no byte at or behind a length. It keeps no state, so calls may run on several threads.

use crate::{Edition, ForwardingKey, Interfaces};
use scion_step_sys::{self as sys, ScionReply as Reply, ScionStepInEdition};

/// In which edition, where a packet is, when, and with which key: the arguments of a step beside its path and its table.
#[derive(Clone, Copy)]
pub(crate) struct At<'a> {
    pub(crate) edition: Edition,
    pub(crate) interface_id: u16,
    pub(crate) time: u32,
    pub(crate) key: &'a ForwardingKey,
    pub(crate) ignore_macs: bool,
}

fn step(call: ScionStepInEdition, interfaces: Interfaces<'_>, path: &mut [u8], at: At<'_>) -> Reply {
    let Interfaces { ids, states } = interfaces;
    // SAFETY: `call` is one of the three functions with this signature. Each pointer comes from a reference that
    // lives through the call, with that reference's length; `path` is borrowed mutably, so nothing overlaps it; the key
    // is read as the 16 bytes it has.
    unsafe {
        call(
            at.edition == Edition::Second,
            ids.as_ptr(),
            ids.len(),
            states.as_ptr(),
            states.len(),
            path.as_mut_ptr(),
            path.len(),
            at.interface_id,
            at.time,
            at.key,
            at.ignore_macs,
        )
    }
}

pub(crate) fn whole_step(interfaces: Interfaces<'_>, path: &mut [u8], at: At<'_>) -> Reply {
    step(sys::scion_handle_standard_path_in_edition, interfaces, path, at)
}

pub(crate) fn ingress(interfaces: Interfaces<'_>, path: &mut [u8], at: At<'_>) -> Reply {
    step(sys::scion_standard_path_ingress_in_edition, interfaces, path, at)
}

pub(crate) fn egress(interfaces: Interfaces<'_>, path: &mut [u8], at: At<'_>) -> Reply {
    step(sys::scion_standard_path_egress_in_edition, interfaces, path, at)
}

pub(crate) fn try_reverse(path: &mut [u8]) -> Reply {
    // SAFETY: pointer and length of one mutable slice.
    unsafe { sys::scion_try_reverse(path.as_mut_ptr(), path.len()) }
}

pub(crate) fn expiration(path: &[u8]) -> Reply {
    // SAFETY: pointer and length of one slice, which is only read.
    unsafe { sys::scion_expiration(path.as_ptr(), path.len()) }
}

pub(crate) fn calculate_segment_index(path: &[u8], hop_idx: u8) -> Reply {
    // SAFETY: pointer and length of one slice, which is only read.
    unsafe { sys::scion_calculate_segment_index(path.as_ptr(), path.len(), hop_idx) }
}

pub(crate) fn check_journey(edition: Edition, path: &[u8], itinerary: &[u8], earliest: u32, latest: u32) -> Reply {
    // SAFETY: pointers and lengths of two slices, which are only read.
    unsafe {
        sys::scion_check_journey_in_edition(
            edition == Edition::Second,
            path.as_ptr(),
            path.len(),
            itinerary.as_ptr(),
            itinerary.len(),
            earliest,
            latest,
        )
    }
}

pub(crate) fn aes_cmac(key: &[u8; 16], message: &[u8]) -> [u8; 16] {
    let mut mac = [0; 16];
    // SAFETY: `key` and `message` are only read, within their lengths; `mac` has the 16 bytes that are written.
    unsafe { sys::scion_aes_cmac(key, message.as_ptr(), message.len(), &mut mac) };
    mac
}

pub(crate) fn calculate_hop_mac(
    segment_id: u16,
    timestamp: u32,
    exp_time: u8,
    cons_ingress: u16,
    cons_egress: u16,
    key: &ForwardingKey,
) -> [u8; 6] {
    let mut mac = [0; 6];
    // SAFETY: `key` is only read; `mac` has the 6 bytes that are written.
    unsafe {
        sys::scion_calculate_hop_mac(
            segment_id,
            timestamp,
            exp_time,
            cons_ingress,
            cons_egress,
            key,
            &mut mac,
        )
    };
    mac
}
