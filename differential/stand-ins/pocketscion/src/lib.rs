// Stands for pocketscion/src/lib.rs and the files that only declare modules.
// Assumes nothing. `interface_state` is here because the fields of `AsRoutingInterfaceState` are open to this crate only.

pub mod network {
    pub mod scion {
        pub mod routing;
    }
}

use network::scion::routing::{AsRoutingInterfaceState, AsRoutingLinkType};

/// The state that a byte of an interface table means: the link, plus 4 if up.
pub fn interface_state(state: u8) -> AsRoutingInterfaceState {
    AsRoutingInterfaceState {
        link_type: match state % 4 {
            0 => AsRoutingLinkType::LinkToCore,
            1 => AsRoutingLinkType::LinkToParent,
            2 => AsRoutingLinkType::LinkToChild,
            _ => AsRoutingLinkType::LinkToPeer,
        },
        is_up: state >= 4,
    }
}
