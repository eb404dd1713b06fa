//! Stands for sciparse/src/proto/packet/view.rs, which is published but needs files that are not: a packet's bytes.
//!
//! Assumes that `to_scmp_error` does no more with a packet than quote it, as the published `spec/standard.rs` says. Any
//! bytes are a packet here; header and path, which only `route` reads, are not there.

use crate::{
    core::view::{View, ViewConversionError},
    dataplane_path::view::ScionDpPathViewRefMut,
    identifier::isd_asn::IsdAsn,
};

#[repr(transparent)]
pub struct ScionPacketView([u8]);
pub type ScionRawPacketView = ScionPacketView;

impl ScionPacketView {
    pub fn header(&self) -> &ScionHeaderView {
        unimplemented!("only `route` calls this")
    }

    pub fn header_mut(&mut self) -> &mut ScionHeaderView {
        unimplemented!("only `route` calls this")
    }
}

/// Any bytes are large enough.
struct AnyBytes(usize);

impl AnyBytes {
    fn try_from_slice(buf: &[u8]) -> Result<Self, ViewConversionError> {
        Ok(AnyBytes(buf.len()))
    }
}

impl crate::core::layout::Layout for AnyBytes {
    fn size_bytes(&self) -> usize {
        self.0
    }
}

crate::core::view::macros::gen_view_impl!(ScionPacketView, AnyBytes);

impl ScionPacketView {
    /// Bytes taken as a packet.
    pub fn of(bytes: &[u8]) -> &Self {
        // SAFETY: any bytes are large enough
        unsafe { Self::from_slice_unchecked(bytes) }
    }
}

pub struct ScionHeaderView(());

impl ScionHeaderView {
    pub fn dst_ia(&self) -> IsdAsn {
        unimplemented!("only `route` calls this")
    }

    pub fn path_mut(&mut self) -> ScionDpPathViewRefMut<'_> {
        unimplemented!("only `route` calls this")
    }
}
