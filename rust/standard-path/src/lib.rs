#![doc = include_str!("../README.md")]
//!
//! ## Beside pocketscion
//!
//! Unlike pocketscion's, the step
//! - takes the AS's interfaces as a table, an [`InterfaceTable`] or unchecked [`Interfaces`], and no closure;
//! - takes no `local_as`, which nothing in the step looks at;
//! - refuses with a [`Refusal`], which has the SCMP error's type, code, and pointer or interface, without its message.
#![deny(unsafe_code, unsafe_op_in_unsafe_fn, missing_docs)]

mod answer;
mod edition;
#[allow(unsafe_code)]
mod ffi;
mod reply;
mod table;

pub use answer::{
    AdvanceError, AsRoutingAction, HeaderError, IngressNextAction, JourneyError, LocalAsRoutingAction,
    PathReverseError, Refusal, ScmpError, SegmentIndex, StandardRoutingError, Verdict,
};
pub use edition::Edition;
pub use table::{AsRoutingInterfaceState, AsRoutingLinkType, InterfaceTable, Interfaces, UnsoundTable};

/// The numbers of all refusals, as `number` of an error gives them. More will be added.
pub const REFUSALS: &[u16] = &[
    1, 2, 3, 4, 5, 6, 7, 8, 9, 10, 11, 12, 13, 14, 15, 16, 17, 18, 19, 20, 21, 22, 23, 24, 25, 28,
];

/// An AS's key for the MACs of its hop fields.
pub type ForwardingKey = [u8; 16];

/// A time, in seconds since 1970.
#[derive(Debug, Clone, Copy, PartialEq, Eq, PartialOrd, Ord, Hash)]
pub struct ScionNetworkTime(pub u32);

impl ScionNetworkTime {
    /// The time that lies so many seconds behind the start of 1970.
    pub fn from_timestamp_secs(secs: u32) -> Self {
        ScionNetworkTime(secs)
    }

    /// The seconds since the start of 1970.
    pub fn timestamp_secs(&self) -> u32 {
        self.0
    }
}

// ---- the step, in the first edition

/// The whole step of an AS on `path`, in place: where does a packet go that came in by `ingress_interface_id` (0 from
/// hosts of this AS)?
///
/// A refusal from a check does not stop the path's move, as in pocketscion; the scope document says which bytes each
/// refusal leaves.
pub fn handle_standard_path<'a>(
    path: &mut [u8],
    ingress_interface_id: u16,
    now: ScionNetworkTime,
    as_forwarding_key: &ForwardingKey,
    interfaces: impl Into<Interfaces<'a>>,
    ignore_macs: bool,
) -> Result<AsRoutingAction, Refusal> {
    let key = as_forwarding_key;
    Edition::First.handle_standard_path(path, ingress_interface_id, now, key, interfaces, ignore_macs)
}

/// The ingress half of the step alone.
pub fn standard_path_ingress<'a>(
    path: &mut [u8],
    ingress_interface_id: u16,
    now: ScionNetworkTime,
    forwarding_key: &ForwardingKey,
    interfaces: impl Into<Interfaces<'a>>,
    ignore_macs: bool,
) -> Result<IngressNextAction, Refusal> {
    let key = forwarding_key;
    Edition::First.standard_path_ingress(path, ingress_interface_id, now, key, interfaces, ignore_macs)
}

/// The egress half of the step alone, leaving by `egress_if_id`.
///
/// It does not ask whether that interface is listed or up: the whole step does, between its halves.
pub fn standard_path_egress<'a>(
    path: &mut [u8],
    egress_if_id: u16,
    now: ScionNetworkTime,
    forwarding_key: &ForwardingKey,
    interfaces: impl Into<Interfaces<'a>>,
    ignore_macs: bool,
) -> Result<AsRoutingAction, Refusal> {
    Edition::First.standard_path_egress(path, egress_if_id, now, forwarding_key, interfaces, ignore_macs)
}

// ---- the path by itself

/// Turns `path` around in place, for the way back.
///
/// [`PathReverseError::HopOutOfBounds`] and [`PathReverseError::InfoOutOfBounds`] leave the lengths swapped, as in
/// pocketscion; the other errors leave the path as it was.
pub fn try_reverse(path: &mut [u8]) -> Result<(), PathReverseError> {
    reply::reversal(ffi::try_reverse(path))
}

/// When the path expires, in seconds since 1970: the least expiry of a hop in a used segment, 0 if there is none.
pub fn expiration(path: &[u8]) -> Result<u32, HeaderError> {
    reply::expiration(ffi::expiration(path))
}

/// The segment that a hop lies in.
pub fn calculate_segment_index(path: &[u8], hop_idx: u8) -> Result<SegmentIndex, HeaderError> {
    reply::segment_index(ffi::calculate_segment_index(path, hop_idx))
}

// ---- the journey check, in the first edition

/// Whether a path, as its source would send it, travels over the stations of an itinerary, whatever their clocks read
/// from `earliest` to `latest`.
///
/// An itinerary is records of 32 bytes, at most 2,048, numbers big-endian. A record starts with the index of the next
/// in its chain, above its own, or 0 in the last.
/// - Record 0 holds the index of the first station, and zeros.
/// - A station: next (2 bytes), the interface that the packet arrives by (2, 0 at the first station only), the index of
///   its first interface record (2, 0 for none), 2 zeros, key (16), 8 zeros.
/// - An interface record: next (2), number (2), state (1, see [`AsRoutingInterfaceState::byte`]), zeros. In a chain the
///   numbers ascend; stations may share records.
///
/// There is a station for each AS of the path: one for each hop, but one for the two hops of a segment change.
pub fn check_journey(
    path: &[u8],
    itinerary: &[u8],
    earliest: ScionNetworkTime,
    latest: ScionNetworkTime,
) -> Result<Verdict, JourneyError> {
    Edition::First.check_journey(path, itinerary, earliest, latest)
}

// ---- MACs

/// AES-CMAC (RFC 4493) of a message of any length.
pub fn aes_cmac(key: &[u8; 16], message: &[u8]) -> [u8; 16] {
    ffi::aes_cmac(key, message)
}

/// The MAC of a hop field.
pub fn calculate_hop_mac(
    segment_id: u16,
    timestamp: u32,
    exp_time: u8,
    cons_ingress: u16,
    cons_egress: u16,
    key: &ForwardingKey,
) -> [u8; 6] {
    ffi::calculate_hop_mac(segment_id, timestamp, exp_time, cons_ingress, cons_egress, key)
}
