//! The published Rust as an oracle: plain functions over bytes and numbers, each with one plain [`Answer`].
//!
//! A table is sound here (strictly ascending numbers, as many states, each below 8) and a path has at most 64 hops: what
//! the scope adds for other inputs, its questions 1 and 4, the Rust does not have. Questions 2 and 3 are the Rust's
//! refusal to make a view.

pub mod answer;
pub mod case;
pub mod counts;
pub mod inputs;

pub use answer::{Answer, number};
pub use case::{Call, Case};

use pocketscion::network::scion::routing::{
    AsRoutingInterfaceState, ScionNetworkTime, spec::standard::StdRoutingLogic,
};
use sciparse::{
    core::{
        layout::Layout,
        view::{View, ViewConversionError},
    },
    dataplane_path::standard::{
        layout::{StdPathDataLayout, StdPathLayout},
        view::StandardPathView,
    },
    identifier::isd_asn::IsdAsn,
};

/// The AS that the step belongs to; the step does not look at it.
const LOCAL_AS: IsdAsn = IsdAsn::WILDCARD;

/// The whole step.
pub fn handle_standard_path(
    path: &mut [u8],
    ids: &[u16],
    states: &[u8],
    interface: u16,
    now: u32,
    key: &[u8; 16],
    ignore_macs: bool,
) -> Answer {
    let path = match view(path) {
        Ok(path) => path,
        Err(refused) => return refused,
    };
    let now = ScionNetworkTime::from_timestamp_secs(now);
    let lookup = lookup(ids, states);
    let result = StdRoutingLogic::handle_standard_path(
        LOCAL_AS,
        path,
        interface,
        now,
        key,
        &lookup,
        ignore_macs,
    );
    answer::of_result(result.map(|action| answer::of_action(&action)))
}

/// The step's first half.
pub fn standard_path_ingress(
    path: &mut [u8],
    ids: &[u16],
    states: &[u8],
    interface: u16,
    now: u32,
    key: &[u8; 16],
    ignore_macs: bool,
) -> Answer {
    let path = match view(path) {
        Ok(path) => path,
        Err(refused) => return refused,
    };
    let now = ScionNetworkTime::from_timestamp_secs(now);
    let lookup = lookup(ids, states);
    let result = StdRoutingLogic::standard_path_ingress(
        LOCAL_AS,
        path,
        interface,
        now,
        key,
        &lookup,
        ignore_macs,
    );
    answer::of_result(result.map(|next| answer::of_next_action(&next)))
}

/// The step's second half.
pub fn standard_path_egress(
    path: &mut [u8],
    ids: &[u16],
    states: &[u8],
    interface: u16,
    now: u32,
    key: &[u8; 16],
    ignore_macs: bool,
) -> Answer {
    let path = match view(path) {
        Ok(path) => path,
        Err(refused) => return refused,
    };
    let now = ScionNetworkTime::from_timestamp_secs(now);
    let lookup = lookup(ids, states);
    let result =
        StdRoutingLogic::standard_path_egress(path, interface, now, key, &lookup, ignore_macs);
    answer::of_result(result.map(|action| answer::of_action(&action)))
}

pub fn try_reverse(path: &mut [u8]) -> Answer {
    match view(path) {
        Ok(path) => answer::of_reversal(path.try_reverse()),
        Err(refused) => refused,
    }
}

pub fn expiration(path: &[u8]) -> Answer {
    match StandardPathView::try_from_slice(path) {
        Ok((path, _)) => Answer::new(number::EXPIRATION, [path.expiration() as u64]),
        Err(error) => refused_view(error),
    }
}

/// The segment of a hop, whether the hop is its first, whether it is its last; lengths below 64.
pub fn calculate_segment_index(lengths: [u8; 3], hop: usize) -> Option<(usize, bool, bool)> {
    let meta = case::meta(0, 0, lengths);
    // SAFETY: only the meta word is read, as when `StdPathLayout` makes its view of it
    unsafe { StandardPathView::from_slice_unchecked(&meta) }.calculate_segment_index(hop)
}

/// What the layout says of three lengths below 64.
#[derive(Debug, Clone, Copy, PartialEq, Eq)]
pub struct Sizes {
    /// The header's bytes: meta word, info fields, hop fields.
    pub bytes: usize,
    pub info_fields: usize,
    pub hop_fields: usize,
}

pub fn sizes(lengths: [u8; 3]) -> Sizes {
    let [first, second, third] = lengths;
    let data = StdPathDataLayout::new(first, second, third);
    Sizes {
        bytes: 4 + data.size_bytes(),
        info_fields: data.info_field_count(),
        hop_fields: data.hop_field_count(),
    }
}

/// The header's bytes as the layout reads them from a path, if the path has as many.
pub fn size_of_path(path: &[u8]) -> Option<usize> {
    StdPathLayout::try_from_slice(path)
        .ok()
        .map(|layout| layout.size_bytes())
}

fn view(path: &mut [u8]) -> Result<&mut StandardPathView, Answer> {
    match StandardPathView::try_from_mut_slice(path) {
        Ok((view, _)) => Ok(view),
        Err(error) => Err(refused_view(error)),
    }
}

/// Question 2 or 3, by the place where the layout ran out of bytes.
fn refused_view(error: ViewConversionError) -> Answer {
    match error {
        ViewConversionError::BufferTooSmall {
            at: "StdPathMeta", ..
        } => Answer::new(2, []),
        ViewConversionError::BufferTooSmall {
            at: "StdPathData", ..
        } => Answer::new(3, []),
        other => panic!("no question for {other:?}"),
    }
}

/// The lookup closure that a table means.
fn lookup(ids: &[u16], states: &[u8]) -> impl Fn(u16) -> Option<AsRoutingInterfaceState> {
    debug_assert!(case::is_sound(ids, states));
    |id| {
        let place = ids.binary_search(&id).ok()?;
        Some(pocketscion::interface_state(states[place]))
    }
}
