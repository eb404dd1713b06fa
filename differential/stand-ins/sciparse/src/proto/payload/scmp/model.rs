//! Stands for sciparse/src/proto/payload/scmp/model.rs, which is published but needs files that are not: the two SCMP
//! error messages that the step makes.
//!
//! Assumes nothing beyond the published file: fields, their types and `message_type` are as there, of `ScmpErrorMessage`
//! two cases. Messages are not encoded here.

use crate::{
    identifier::isd_asn::IsdAsn,
    payload::scmp::types::{ScmpMessageType, ScmpParameterProblemCode},
};

#[derive(Debug, Clone, Eq, PartialEq, PartialOrd, Ord, Hash)]
#[non_exhaustive]
pub enum ScmpErrorMessage {
    ParameterProblem(ScmpParameterProblem),
    ExternalInterfaceDown(ScmpExternalInterfaceDown),
}

impl ScmpErrorMessage {
    pub const fn message_type(&self) -> ScmpMessageType {
        match self {
            Self::ParameterProblem(_) => ScmpMessageType::ParameterProblem,
            Self::ExternalInterfaceDown(_) => ScmpMessageType::ExternalInterfaceDown,
        }
    }
}

#[derive(Debug, Clone, Eq, PartialEq, PartialOrd, Ord, Hash)]
pub struct ScmpParameterProblem {
    pub code: ScmpParameterProblemCode,
    pub pointer: u16,
    pub offending_packet: Vec<u8>,
}

impl ScmpParameterProblem {
    pub fn new(code: ScmpParameterProblemCode, pointer: u16, offending_packet: Vec<u8>) -> Self {
        Self {
            code,
            pointer,
            offending_packet,
        }
    }
}

impl From<ScmpParameterProblem> for ScmpErrorMessage {
    fn from(message: ScmpParameterProblem) -> Self {
        Self::ParameterProblem(message)
    }
}

#[derive(Debug, Clone, Eq, PartialEq, PartialOrd, Ord, Hash)]
pub struct ScmpExternalInterfaceDown {
    pub isd_asn: IsdAsn,
    pub interface_id: u16,
    pub offending_packet: Vec<u8>,
}

impl ScmpExternalInterfaceDown {
    pub fn new(isd_asn: IsdAsn, interface_id: u16, offending_packet: Vec<u8>) -> Self {
        Self {
            isd_asn,
            interface_id,
            offending_packet,
        }
    }
}

impl From<ScmpExternalInterfaceDown> for ScmpErrorMessage {
    fn from(message: ScmpExternalInterfaceDown) -> Self {
        Self::ExternalInterfaceDown(message)
    }
}
