//! The numbers of answers. Those below 100 refuse. More will be added.

/// The lists of interfaces are no table: unlike lengths, more than 256 entries, not ascending, or a state above 7.
pub const SCION_UNSOUND_TABLE: u16 = 1;
/// The path is shorter than its meta header.
pub const SCION_META_TOO_SHORT: u16 = 2;
/// The path is shorter than its segment lengths say.
pub const SCION_DATA_TOO_SHORT: u16 = 3;
/// The path has more than 64 hops.
pub const SCION_TOO_MANY_HOPS: u16 = 4;
/// Value: the index of a hop that the path does not have.
pub const SCION_HOP_OUT_OF_BOUNDS: u16 = 5;
/// The current hop is the only one of its segment.
pub const SCION_SINGLE_HOP_SEGMENT: u16 = 6;
/// Values: the segment of the current hop, the current info field, which is another.
pub const SCION_INVALID_SEGMENT_INDEX: u16 = 7;
/// Value: the index of an info field that the path does not have.
pub const SCION_INFO_OUT_OF_BOUNDS: u16 = 8;
/// Values: the hop, the interface that the packet came in by, the one that the hop field names, C.
pub const SCION_INVALID_INGRESS_INTERFACE: u16 = 9;
/// Value: the hop, of a segment with a timestamp in the future.
pub const SCION_FUTURE_TIMESTAMP: u16 = 10;
/// Value: the hop, which has expired.
pub const SCION_SEGMENT_EXPIRED: u16 = 11;
/// Values: the hop, the MAC that the key gives, the MAC of the hop field; each MAC as a number, its first byte the highest.
pub const SCION_INVALID_MAC_ERROR: u16 = 12;
/// Values: the hop, C. An alert is set at a segment change.
pub const SCION_INVALID_SCMP_ALERT: u16 = 13;
/// Values: the hop, the interface to come in by, which is not in the table, C.
pub const SCION_UNKNOWN_INGRESS_INTERFACE: u16 = 14;
/// Values: the hop, the interface to leave by, which is not in the table, C.
pub const SCION_UNKNOWN_EGRESS_INTERFACE: u16 = 15;
/// Value: the hop. The links before and behind the segment change do not go together.
pub const SCION_INVALID_SEGMENT_CHANGE: u16 = 16;
/// Values: the hop, the interface to leave by, which is down.
pub const SCION_EGRESS_INTERFACE_DOWN: u16 = 17;
/// The current hop is its segment's last, so that no packet leaves by it.
pub const SCION_SEGMENT_END: u16 = 18;
/// Values: the hop, the interface to leave by, the one that the hop field names, C.
pub const SCION_INVALID_EGRESS_INTERFACE: u16 = 19;
/// A path whose first segment is empty is not turned around.
pub const SCION_NO_SEGMENTS: u16 = 20;
/// A path whose current hop field is none of its own is not turned around.
pub const SCION_REVERSE_HOP_OUT_OF_BOUNDS: u16 = 21;
/// A path whose current info field is none of a used segment is not turned around.
pub const SCION_REVERSE_INFO_OUT_OF_BOUNDS: u16 = 22;
/// The itinerary is unsound, or does not fit the path or the two clock readings.
pub const SCION_UNFIT_ITINERARY: u16 = 23;
/// The path does not stand at its first hop and info field.
pub const SCION_NOT_AT_START: u16 = 24;
/// A hop field of the path has an SCMP alert.
pub const SCION_ALERT_SET: u16 = 25;
/// P is set in an info field of a path that is no peering path. Of the second edition only.
pub const SCION_MISPLACED_PEERING: u16 = 28;

/// The egress half is next. Value: the interface to leave by.
pub const SCION_CONTINUE_EGRESS: u16 = 100;
/// The packet goes on to the next AS. Value: the interface to leave by.
pub const SCION_FORWARD_NEXT_HOP: u16 = 101;
/// The packet is delivered in this AS.
pub const SCION_FORWARD_LOCAL: u16 = 102;
/// The packet is an SCMP request to the router that it came in by. Value: the interface.
pub const SCION_INGRESS_SCMP_HANDLE_REQUEST: u16 = 103;
/// The packet is an SCMP request to the router that it would leave by. Value: the interface.
pub const SCION_EGRESS_SCMP_HANDLE_REQUEST: u16 = 104;
/// The path is turned around.
pub const SCION_REVERSED: u16 = 110;
/// Value: when the path expires, 0 for a path without segments.
pub const SCION_EXPIRATION: u16 = 111;
/// Values: the segment, whether the hop is its first, whether its last.
pub const SCION_SEGMENT_INDEX: u16 = 112;
/// The path travels over the itinerary's stations, whatever their clocks read.
pub const SCION_PASSED: u16 = 120;
/// For some clock readings it does not.
pub const SCION_NOT_PASSED: u16 = 121;
