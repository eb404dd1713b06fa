//! Stands for pocketscion/src/network/scion/routing/spec/onehop.rs: the routing of one-hop paths.
//!
//! Assumes that only `route` calls it, and no comparison calls `route`.

use sciparse::{
    dataplane_path::{standard::mac::ForwardingKey, view::OneHopPathView},
    identifier::isd_asn::IsdAsn,
    packet::view::ScionRawPacketView,
    payload::scmp::model::ScmpErrorMessage,
};

use crate::network::scion::routing::{AsRoutingAction, AsRoutingInterfaceState, ScionNetworkTime};

pub struct OneHopRoutingLogic;

impl OneHopRoutingLogic {
    pub fn handle_one_hop_path(
        _local_as: IsdAsn,
        _path: &mut OneHopPathView,
        _ingress_interface_id: u16,
        _now: ScionNetworkTime,
        _as_forwarding_key: &ForwardingKey,
        _interface_link_type_lookup: &impl Fn(u16) -> Option<AsRoutingInterfaceState>,
        _ignore_macs: bool,
    ) -> Result<AsRoutingAction, OneHopRoutingError> {
        Err(OneHopRoutingError)
    }
}

#[derive(Debug)]
pub struct OneHopRoutingError;

impl OneHopRoutingError {
    pub fn to_scmp_error(&self, _packet: &ScionRawPacketView) -> Option<ScmpErrorMessage> {
        None
    }
}
