//! What the calls answer. The names are pocketscion's; the cases that the step never gives are left out. An enum that is
//! known to grow is `non_exhaustive`; the others have all cases that there are.
//!
//! From crates/pocketscion/src/network/scion/routing.rs and routing/spec/standard.rs, and from
//! crates/libs/sciparse/src/proto/dataplane_path/standard/routing.rs, of Anapaya/scion-sdk at commit 866faf5ba3, and
//! changed: fewer cases, numbers for texts, other sentences.
//! Copyright 2025 Anapaya Systems
//! Copyright 2026 Anapaya Systems
//! Licensed under the Apache License, Version 2.0: see NOTICE.

use std::error::Error;
use std::fmt;

// ---- what is done with a packet

/// What is done with a packet in this AS.
#[derive(Debug, Clone, Copy, PartialEq, Eq, Hash)]
pub enum LocalAsRoutingAction {
    /// It is an SCMP request to the router at the interface that it came in by.
    IngressSCMPHandleRequest {
        /// That interface.
        interface_id: u16,
    },
    /// It is an SCMP request to the router at the interface that it would leave by.
    EgressSCMPHandleRequest {
        /// That interface.
        interface_id: u16,
    },
    /// It is delivered in this AS.
    ForwardLocal,
}

impl LocalAsRoutingAction {
    /// The library's number: 102 to 104.
    pub fn number(&self) -> u16 {
        match self {
            LocalAsRoutingAction::ForwardLocal => 102,
            LocalAsRoutingAction::IngressSCMPHandleRequest { .. } => 103,
            LocalAsRoutingAction::EgressSCMPHandleRequest { .. } => 104,
        }
    }
}

impl fmt::Display for LocalAsRoutingAction {
    fn fmt(&self, f: &mut fmt::Formatter<'_>) -> fmt::Result {
        match self {
            LocalAsRoutingAction::ForwardLocal => write!(f, "the packet is delivered in this AS"),
            LocalAsRoutingAction::IngressSCMPHandleRequest { interface_id } => write!(
                f,
                "the router at interface {interface_id}, by which the packet came in, answers it as an SCMP request"
            ),
            LocalAsRoutingAction::EgressSCMPHandleRequest { interface_id } => write!(
                f,
                "the router at interface {interface_id}, by which the packet would leave, answers it as an SCMP request"
            ),
        }
    }
}

/// What is done with a packet after the step.
#[derive(Debug, Clone, Copy, PartialEq, Eq, Hash)]
pub enum AsRoutingAction {
    /// It stays in this AS.
    Local(LocalAsRoutingAction),
    /// It goes on to the next AS.
    ForwardNextHop {
        /// The interface that it leaves by.
        egress_interface_id: u16,
    },
}

impl AsRoutingAction {
    /// The library's number: 101 to 104.
    pub fn number(&self) -> u16 {
        match self {
            AsRoutingAction::Local(action) => action.number(),
            AsRoutingAction::ForwardNextHop { .. } => 101,
        }
    }
}

impl From<LocalAsRoutingAction> for AsRoutingAction {
    fn from(action: LocalAsRoutingAction) -> Self {
        AsRoutingAction::Local(action)
    }
}

impl fmt::Display for AsRoutingAction {
    fn fmt(&self, f: &mut fmt::Formatter<'_>) -> fmt::Result {
        match self {
            AsRoutingAction::Local(action) => action.fmt(f),
            AsRoutingAction::ForwardNextHop { egress_interface_id } => {
                write!(f, "the packet leaves by interface {egress_interface_id}")
            }
        }
    }
}

/// What the ingress half comes to.
#[derive(Debug, Clone, Copy, PartialEq, Eq, Hash)]
pub enum IngressNextAction {
    /// The step ends here.
    Complete(AsRoutingAction),
    /// The egress half is next.
    ContinueEgress {
        /// The interface to leave by.
        egress_interface_id: u16,
    },
}

impl IngressNextAction {
    /// The library's number: 100 to 104.
    pub fn number(&self) -> u16 {
        match self {
            IngressNextAction::Complete(action) => action.number(),
            IngressNextAction::ContinueEgress { .. } => 100,
        }
    }
}

impl From<AsRoutingAction> for IngressNextAction {
    fn from(action: AsRoutingAction) -> Self {
        IngressNextAction::Complete(action)
    }
}

impl fmt::Display for IngressNextAction {
    fn fmt(&self, f: &mut fmt::Formatter<'_>) -> fmt::Result {
        match self {
            IngressNextAction::Complete(action) => action.fmt(f),
            IngressNextAction::ContinueEgress { egress_interface_id } => {
                write!(f, "the packet goes on to leave by interface {egress_interface_id}")
            }
        }
    }
}

// ---- why a packet is refused

/// Why a path can't be advanced.
#[derive(Debug, Clone, Copy, PartialEq, Eq, Hash)]
#[non_exhaustive]
pub enum AdvanceError {
    /// There is no hop with this index.
    HopOutOfBounds(u8),
    /// There is no info field with this index.
    InfoOutOfBounds(u8),
    /// The header's two indices are of different segments.
    InvalidSegmentIndex {
        /// The segment that the current hop lies in.
        expected: usize,
        /// The header's current info field.
        actual: usize,
    },
    /// The current hop is the only one of its segment (pocketscion's `InvalidPathState`).
    SingleHopSegment,
    /// The segment ends here, so that the packet can't leave (pocketscion's `InvalidPathState`).
    SegmentEnd,
    /// P is set in an info field of a path that is no peering path. Only [`Edition::Second`](crate::Edition::Second)
    /// answers so.
    MisplacedPeering,
}

impl AdvanceError {
    /// The scope document's number: 5 to 8, 18 and 28.
    pub fn number(&self) -> u16 {
        match self {
            AdvanceError::HopOutOfBounds(_) => 5,
            AdvanceError::SingleHopSegment => 6,
            AdvanceError::InvalidSegmentIndex { .. } => 7,
            AdvanceError::InfoOutOfBounds(_) => 8,
            AdvanceError::SegmentEnd => 18,
            AdvanceError::MisplacedPeering => 28,
        }
    }
}

impl fmt::Display for AdvanceError {
    fn fmt(&self, f: &mut fmt::Formatter<'_>) -> fmt::Result {
        match self {
            AdvanceError::HopOutOfBounds(index) => write!(f, "the path has no hop {index}"),
            AdvanceError::InfoOutOfBounds(index) => write!(f, "the path has no info field {index}"),
            AdvanceError::InvalidSegmentIndex { expected, actual } => write!(
                f,
                "the current hop lies in segment {expected}, but the path header says segment {actual}"
            ),
            AdvanceError::SingleHopSegment => {
                write!(f, "the current hop is the only one of its segment")
            }
            AdvanceError::SegmentEnd => write!(
                f,
                "the current hop is its segment's last, so the packet can't leave by it"
            ),
            AdvanceError::MisplacedPeering => write!(f, "P is set on a path that is no peering path"),
        }
    }
}

impl Error for AdvanceError {}

/// Why a packet is refused.
///
/// Hop indices count from 0, in the order of the path. `cons_dir` says whether the hop's segment is travelled in the
/// direction in which it was constructed.
#[derive(Debug, Clone, Copy, PartialEq, Eq, Hash)]
#[non_exhaustive]
pub enum StandardRoutingError {
    /// The interfaces given are no table, see [`UnsoundTable`](crate::UnsoundTable).
    UnsoundTable,
    /// The path is shorter than the four bytes of its meta header.
    MetaTooShort,
    /// The path is shorter than its segment lengths say.
    DataTooShort,
    /// The path has more than 64 hops.
    TooManyHops,
    /// The path can't be advanced.
    AdvanceFailed(AdvanceError),
    /// The packet came in by another interface than the hop field names.
    InvalidIngressInterface {
        /// The hop.
        hop_index: usize,
        /// The interface that the packet came in by.
        expected: u16,
        /// The interface that the hop field names.
        found: u16,
        /// Whether travel is in construction direction.
        cons_dir: bool,
    },
    /// The packet is to leave by another interface than the hop field names.
    InvalidEgressInterface {
        /// The hop.
        hop_index: usize,
        /// The interface that the packet is to leave by.
        expected: u16,
        /// The interface that the hop field names.
        found: u16,
        /// Whether travel is in construction direction.
        cons_dir: bool,
    },
    /// The segment's timestamp is in the future.
    FutureTimestamp {
        /// The hop.
        hop_index: usize,
    },
    /// The hop field has expired.
    SegmentExpired {
        /// The hop.
        hop_index: usize,
    },
    /// At a segment change, the interface that the first hop comes in by is not in the table.
    UnknownIngressInterface {
        /// The hop.
        hop_index: usize,
        /// The interface.
        if_id: u16,
        /// Whether travel is in construction direction.
        cons_dir: bool,
    },
    /// The interface to leave by is not in the table.
    UnknownEgressInterface {
        /// The hop.
        hop_index: usize,
        /// The interface.
        if_id: u16,
        /// Whether travel is in construction direction.
        cons_dir: bool,
    },
    /// The hop field's MAC is not the one that the key gives. Who gets to see this learns the right one: see
    /// [Keys](crate#keys).
    InvalidMacError {
        /// The hop.
        hop_index: usize,
        /// The MAC that the key gives.
        expected: [u8; 6],
        /// The MAC in the hop field.
        actual: [u8; 6],
    },
    /// The two links of a segment change do not go together.
    InvalidSegmentChange {
        /// The hop.
        hop_index: usize,
    },
    /// The interface to leave by is down.
    EgressInterfaceDown {
        /// The hop.
        hop_index: usize,
        /// The interface.
        if_id: u16,
    },
    /// An SCMP alert is set between the two hops of a segment change.
    InvalidScmpAlert {
        /// The hop.
        hop_index: usize,
        /// Whether travel is in construction direction, in the segment of the hop with the alert.
        cons_dir: bool,
    },
}

impl StandardRoutingError {
    /// The scope document's number: 1 to 19.
    pub fn number(&self) -> u16 {
        match self {
            StandardRoutingError::UnsoundTable => 1,
            StandardRoutingError::MetaTooShort => 2,
            StandardRoutingError::DataTooShort => 3,
            StandardRoutingError::TooManyHops => 4,
            StandardRoutingError::AdvanceFailed(why) => why.number(),
            StandardRoutingError::InvalidIngressInterface { .. } => 9,
            StandardRoutingError::FutureTimestamp { .. } => 10,
            StandardRoutingError::SegmentExpired { .. } => 11,
            StandardRoutingError::InvalidMacError { .. } => 12,
            StandardRoutingError::InvalidScmpAlert { .. } => 13,
            StandardRoutingError::UnknownIngressInterface { .. } => 14,
            StandardRoutingError::UnknownEgressInterface { .. } => 15,
            StandardRoutingError::InvalidSegmentChange { .. } => 16,
            StandardRoutingError::EgressInterfaceDown { .. } => 17,
            StandardRoutingError::InvalidEgressInterface { .. } => 19,
        }
    }
}

impl From<AdvanceError> for StandardRoutingError {
    fn from(why: AdvanceError) -> Self {
        StandardRoutingError::AdvanceFailed(why)
    }
}

const META_TOO_SHORT: &str = "the path is shorter than its meta header of 4 bytes";
const DATA_TOO_SHORT: &str = "the path is shorter than its segment lengths say";
const TOO_MANY_HOPS: &str = "the path has more than 64 hops";

struct Hex([u8; 6]);

impl fmt::Display for Hex {
    fn fmt(&self, f: &mut fmt::Formatter<'_>) -> fmt::Result {
        self.0.iter().try_for_each(|byte| write!(f, "{byte:02x}"))
    }
}

impl fmt::Display for StandardRoutingError {
    fn fmt(&self, f: &mut fmt::Formatter<'_>) -> fmt::Result {
        match *self {
            StandardRoutingError::UnsoundTable => write!(
                f,
                "the interface table is unsound: it takes at most 256 ascending numbers, and a state below 8 for each"
            ),
            StandardRoutingError::MetaTooShort => write!(f, "{META_TOO_SHORT}"),
            StandardRoutingError::DataTooShort => write!(f, "{DATA_TOO_SHORT}"),
            StandardRoutingError::TooManyHops => write!(f, "{TOO_MANY_HOPS}"),
            StandardRoutingError::AdvanceFailed(why) => why.fmt(f),
            StandardRoutingError::InvalidIngressInterface {
                hop_index,
                expected,
                found,
                ..
            } => write!(
                f,
                "hop {hop_index}: the packet came in by interface {expected}, but the hop field names {found}"
            ),
            StandardRoutingError::InvalidEgressInterface {
                hop_index,
                expected,
                found,
                ..
            } => write!(
                f,
                "hop {hop_index}: the packet is to leave by interface {expected}, but the hop field names {found}"
            ),
            StandardRoutingError::FutureTimestamp { hop_index } => {
                write!(f, "hop {hop_index}: the segment's timestamp is in the future")
            }
            StandardRoutingError::SegmentExpired { hop_index } => {
                write!(f, "hop {hop_index}: the hop field has expired")
            }
            StandardRoutingError::UnknownIngressInterface { hop_index, if_id, .. } => write!(
                f,
                "hop {hop_index}: interface {if_id}, to come in by, is not in the interface table"
            ),
            StandardRoutingError::UnknownEgressInterface { hop_index, if_id, .. } => write!(
                f,
                "hop {hop_index}: interface {if_id}, to leave by, is not in the interface table"
            ),
            StandardRoutingError::InvalidMacError {
                hop_index,
                expected,
                actual,
            } => write!(
                f,
                "hop {hop_index}: the hop field's MAC is {}, but the key gives {}",
                Hex(actual),
                Hex(expected)
            ),
            StandardRoutingError::InvalidSegmentChange { hop_index } => write!(
                f,
                "hop {hop_index}: the links before and behind the segment change do not go together"
            ),
            StandardRoutingError::EgressInterfaceDown { hop_index, if_id } => {
                write!(f, "hop {hop_index}: interface {if_id}, to leave by, is down")
            }
            StandardRoutingError::InvalidScmpAlert { hop_index, .. } => write!(
                f,
                "hop {hop_index}: an SCMP alert is set at a segment change, where no router can answer it"
            ),
        }
    }
}

impl Error for StandardRoutingError {}

/// The SCMP error that a refusal is answered with, without its message.
#[derive(Debug, Clone, Copy, PartialEq, Eq, Hash)]
pub enum ScmpError {
    /// Type 4.
    ParameterProblem {
        /// Its code.
        code: u8,
        /// Its pointer, 0 from every refusal.
        pointer: u32,
    },
    /// Type 5.
    ExternalInterfaceDown {
        /// The interface that is down.
        interface_id: u16,
    },
}

impl ScmpError {
    /// The SCMP type, 4 or 5.
    pub fn scmp_type(&self) -> u8 {
        match self {
            ScmpError::ParameterProblem { .. } => 4,
            ScmpError::ExternalInterfaceDown { .. } => 5,
        }
    }

    /// The SCMP code, 0 for type 5.
    pub fn code(&self) -> u8 {
        match self {
            ScmpError::ParameterProblem { code, .. } => *code,
            ScmpError::ExternalInterfaceDown { .. } => 0,
        }
    }
}

impl fmt::Display for ScmpError {
    fn fmt(&self, f: &mut fmt::Formatter<'_>) -> fmt::Result {
        match self {
            ScmpError::ParameterProblem { code, pointer } => {
                write!(f, "SCMP parameter problem, code {code}, pointer {pointer}")
            }
            ScmpError::ExternalInterfaceDown { interface_id } => {
                write!(f, "SCMP external interface down, interface {interface_id}")
            }
        }
    }
}

/// A refusal: why, and the SCMP error that goes back.
#[derive(Debug, Clone, Copy, PartialEq, Eq, Hash)]
pub struct Refusal {
    /// Why the packet is refused.
    pub error: StandardRoutingError,
    /// The SCMP error, or none where the path or the table is malformed.
    pub scmp: Option<ScmpError>,
}

impl Refusal {
    /// The scope document's number: 1 to 19.
    pub fn number(&self) -> u16 {
        self.error.number()
    }

    /// The SCMP error that goes back to the sender, if there is one.
    pub fn to_scmp_error(&self) -> Option<ScmpError> {
        self.scmp
    }
}

impl fmt::Display for Refusal {
    fn fmt(&self, f: &mut fmt::Formatter<'_>) -> fmt::Result {
        self.error.fmt(f)
    }
}

impl Error for Refusal {
    fn source(&self) -> Option<&(dyn Error + 'static)> {
        Some(&self.error)
    }
}

// ---- the path by itself

/// Why a path's header can't be read.
#[derive(Debug, Clone, Copy, PartialEq, Eq, Hash)]
pub enum HeaderError {
    /// The path is shorter than the four bytes of its meta header.
    MetaTooShort,
    /// The path is shorter than its segment lengths say.
    DataTooShort,
    /// The path has more than 64 hops.
    TooManyHops,
}

impl HeaderError {
    /// The scope document's number: 2 to 4.
    pub fn number(&self) -> u16 {
        match self {
            HeaderError::MetaTooShort => 2,
            HeaderError::DataTooShort => 3,
            HeaderError::TooManyHops => 4,
        }
    }
}

impl fmt::Display for HeaderError {
    fn fmt(&self, f: &mut fmt::Formatter<'_>) -> fmt::Result {
        f.write_str(match self {
            HeaderError::MetaTooShort => META_TOO_SHORT,
            HeaderError::DataTooShort => DATA_TOO_SHORT,
            HeaderError::TooManyHops => TOO_MANY_HOPS,
        })
    }
}

impl Error for HeaderError {}

/// Why a path is not turned around.
#[derive(Debug, Clone, Copy, PartialEq, Eq, Hash)]
pub enum PathReverseError {
    /// The path is shorter than the four bytes of its meta header.
    MetaTooShort,
    /// The path is shorter than its segment lengths say.
    DataTooShort,
    /// The path has more than 64 hops.
    TooManyHops,
    /// The first segment length is 0.
    NoSegments,
    /// The current hop field is not one of the path.
    HopOutOfBounds,
    /// The current info field is not one of a used segment.
    InfoOutOfBounds,
}

impl PathReverseError {
    /// The scope document's number: 2 to 4 and 20 to 22.
    pub fn number(&self) -> u16 {
        match self {
            PathReverseError::MetaTooShort => 2,
            PathReverseError::DataTooShort => 3,
            PathReverseError::TooManyHops => 4,
            PathReverseError::NoSegments => 20,
            PathReverseError::HopOutOfBounds => 21,
            PathReverseError::InfoOutOfBounds => 22,
        }
    }
}

impl fmt::Display for PathReverseError {
    fn fmt(&self, f: &mut fmt::Formatter<'_>) -> fmt::Result {
        f.write_str(match self {
            PathReverseError::MetaTooShort => META_TOO_SHORT,
            PathReverseError::DataTooShort => DATA_TOO_SHORT,
            PathReverseError::TooManyHops => TOO_MANY_HOPS,
            PathReverseError::NoSegments => "the path's first segment is empty",
            PathReverseError::HopOutOfBounds => "the path has no such hop as its current one",
            PathReverseError::InfoOutOfBounds => "the path has no such segment as that of its current info field",
        })
    }
}

impl Error for PathReverseError {}

/// The segment that a hop lies in.
#[derive(Debug, Clone, Copy, PartialEq, Eq, Hash)]
pub enum SegmentIndex {
    /// There is such a hop.
    At {
        /// The segment's place among the path's three, from 0.
        index: u8,
        /// Whether the hop is the segment's first.
        start: bool,
        /// Whether the hop is the segment's last.
        end: bool,
    },
    /// There is no such hop.
    OutOfBounds,
}

impl SegmentIndex {
    /// The library's number: 112, or the scope document's 5 if there is no such hop.
    pub fn number(&self) -> u16 {
        match self {
            SegmentIndex::At { .. } => 112,
            SegmentIndex::OutOfBounds => 5,
        }
    }
}

impl fmt::Display for SegmentIndex {
    fn fmt(&self, f: &mut fmt::Formatter<'_>) -> fmt::Result {
        match self {
            SegmentIndex::At { index, start, end } => {
                let place = match (start, end) {
                    (true, true) => "the only hop",
                    (true, false) => "the first hop",
                    (false, true) => "the last hop",
                    (false, false) => "an inner hop",
                };
                write!(f, "{place} of segment {index}")
            }
            SegmentIndex::OutOfBounds => write!(f, "the path has no such hop"),
        }
    }
}

// ---- the journey check

/// What the journey check says of a path.
#[derive(Debug, Clone, Copy, PartialEq, Eq, Hash)]
pub enum Verdict {
    /// The path travels, whatever the stations' clocks read between the two readings.
    Passed,
    /// For some readings it does not. Fields will come, so it is matched as `NotPassed { .. }`.
    #[non_exhaustive]
    NotPassed,
}

impl Verdict {
    /// The library's number: 120 or 121.
    pub fn number(&self) -> u16 {
        match self {
            Verdict::Passed => 120,
            Verdict::NotPassed => 121,
        }
    }
}

impl fmt::Display for Verdict {
    fn fmt(&self, f: &mut fmt::Formatter<'_>) -> fmt::Result {
        f.write_str(match self {
            Verdict::Passed => "the path travels over the itinerary's stations",
            Verdict::NotPassed => "the path does not travel over the itinerary's stations for all clock readings",
        })
    }
}

/// No other crate makes a `NotPassed`, as it would without the fields that will come.
///
/// ```compile_fail
/// let verdict = standard_path::Verdict::NotPassed;
/// ```
#[cfg(doctest)]
pub struct MadeElsewhere;

/// Why the journey check can't be made.
#[derive(Debug, Clone, Copy, PartialEq, Eq, Hash)]
#[non_exhaustive]
pub enum JourneyError {
    /// The path is shorter than the four bytes of its meta header.
    MetaTooShort,
    /// The path is shorter than its segment lengths say.
    DataTooShort,
    /// The path has more than 64 hops.
    TooManyHops,
    /// The itinerary or a table of it is unsound, it has not one station for each AS of the path, the first station's
    /// arrival interface is not 0 or a later one's is, or the earliest reading is later than the latest.
    UnfitItinerary,
    /// The path does not stand at its first hop and info field.
    NotAtStart,
    /// A hop field has an SCMP alert.
    AlertSet,
}

impl JourneyError {
    /// The scope document's number: 2 to 4 and 23 to 25.
    pub fn number(&self) -> u16 {
        match self {
            JourneyError::MetaTooShort => 2,
            JourneyError::DataTooShort => 3,
            JourneyError::TooManyHops => 4,
            JourneyError::UnfitItinerary => 23,
            JourneyError::NotAtStart => 24,
            JourneyError::AlertSet => 25,
        }
    }
}

impl fmt::Display for JourneyError {
    fn fmt(&self, f: &mut fmt::Formatter<'_>) -> fmt::Result {
        f.write_str(match self {
            JourneyError::MetaTooShort => META_TOO_SHORT,
            JourneyError::DataTooShort => DATA_TOO_SHORT,
            JourneyError::TooManyHops => TOO_MANY_HOPS,
            JourneyError::UnfitItinerary => {
                "the itinerary is unsound, or does not fit the path or the two clock readings"
            }
            JourneyError::NotAtStart => "the path does not stand at its first hop and info field",
            JourneyError::AlertSet => "a hop field of the path has an SCMP alert",
        })
    }
}

impl Error for JourneyError {}
