//! The step, its halves and the journey check by the edition of their rules.

use crate::{
    ffi, reply, AsRoutingAction, ForwardingKey, IngressNextAction, Interfaces, JourneyError, Refusal, ScionNetworkTime,
    Verdict,
};

/// Which rules a call follows: what P, the peering flag of an info field, means.
///
/// The functions of the crate's root are those of [`Edition::First`]. Where no info field of a path has P, both editions
/// give the same answers, bytes and verdicts.
#[derive(Debug, Clone, Copy, PartialEq, Eq, Hash, Default)]
pub enum Edition {
    /// pocketscion's: P has no meaning.
    #[default]
    First,
    /// With the rule of SCION's data plane draft. On a path whose first two lengths alone are not 0 and that has P in both
    /// info fields, the last hop of the first segment and the first of the second are peering hops: they take no beta step
    /// and make no segment change, and each is an AS of its own. P on any other path is refused.
    Second,
}

impl Edition {
    /// [`handle_standard_path`](crate::handle_standard_path) in this edition.
    pub fn handle_standard_path<'a>(
        self,
        path: &mut [u8],
        ingress_interface_id: u16,
        now: ScionNetworkTime,
        as_forwarding_key: &ForwardingKey,
        interfaces: impl Into<Interfaces<'a>>,
        ignore_macs: bool,
    ) -> Result<AsRoutingAction, Refusal> {
        let at = self.at(ingress_interface_id, now, as_forwarding_key, ignore_macs);
        reply::step(ffi::whole_step(interfaces.into(), path, at))
    }

    /// [`standard_path_ingress`](crate::standard_path_ingress) in this edition.
    pub fn standard_path_ingress<'a>(
        self,
        path: &mut [u8],
        ingress_interface_id: u16,
        now: ScionNetworkTime,
        forwarding_key: &ForwardingKey,
        interfaces: impl Into<Interfaces<'a>>,
        ignore_macs: bool,
    ) -> Result<IngressNextAction, Refusal> {
        let at = self.at(ingress_interface_id, now, forwarding_key, ignore_macs);
        reply::ingress(ffi::ingress(interfaces.into(), path, at))
    }

    /// [`standard_path_egress`](crate::standard_path_egress) in this edition.
    pub fn standard_path_egress<'a>(
        self,
        path: &mut [u8],
        egress_if_id: u16,
        now: ScionNetworkTime,
        forwarding_key: &ForwardingKey,
        interfaces: impl Into<Interfaces<'a>>,
        ignore_macs: bool,
    ) -> Result<AsRoutingAction, Refusal> {
        let at = self.at(egress_if_id, now, forwarding_key, ignore_macs);
        reply::step(ffi::egress(interfaces.into(), path, at))
    }

    /// [`check_journey`](crate::check_journey) in this edition. In the second, a peering path has a station for each of its
    /// hops.
    pub fn check_journey(
        self,
        path: &[u8],
        itinerary: &[u8],
        earliest: ScionNetworkTime,
        latest: ScionNetworkTime,
    ) -> Result<Verdict, JourneyError> {
        reply::journey(ffi::check_journey(self, path, itinerary, earliest.0, latest.0))
    }

    fn at(self, interface_id: u16, now: ScionNetworkTime, key: &ForwardingKey, ignore_macs: bool) -> ffi::At<'_> {
        ffi::At {
            edition: self,
            interface_id,
            time: now.0,
            key,
            ignore_macs,
        }
    }
}
