//! Stands for sciparse/src/scion/identifier/isd_asn.rs, which is published but needs files that are not.
//!
//! Assumes that the step passes the number on and never looks at it.

#[derive(Debug, Copy, Clone, Eq, PartialEq, Hash, PartialOrd, Ord)]
#[repr(transparent)]
pub struct IsdAsn(pub u64);

impl IsdAsn {
    pub const WILDCARD: Self = Self(0);
}
