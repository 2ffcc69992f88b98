// Made from crates/h265_payload/src/detect.rt by tools/to-rust.

//! Whether a packet is known to hold a key unit, or to begin one (str0m's rule).

use crate::proved::h26x_core::{H265FragmentationUnitHeader, H265NALUHeader};
use crate::proved::h26x_depacketizer::holds_key;
use crate::proved::h26x_payload::PayloadFormat;
use crate::proved::h265_payload::codec::{H265, header_of};

/// Whether what stands behind a fragment's header begins a key unit (RFC 7798, 4.4.3).
fn begins_key(rest: &[u8]) -> bool {
    if rest.is_empty() {
        return false;
    }
    let marks = H265FragmentationUnitHeader(rest[0]);
    marks.s() && H265NALUHeader::new_with_type(marks.fu_type(), 0, 0).is_irap()
}

/// Whether a packet is known to hold a slice of an IRAP picture, or to be the first fragment of one
/// (RFC 7798, 4.4).
///
/// F is not looked at, and no decoding order number is expected. The units of an aggregate are
/// looked at up to one that has no whole header or passes the end.
pub fn detect_h265_keyframe(payload: &[u8]) -> bool {
    if payload.len() < 2 {
        return false;
    }
    let header = header_of(payload);
    let rest = &payload[2..];
    if header.is_aggregation_packet() {
        holds_key(H265::new(), rest)
    } else if header.is_fragmentation_unit() {
        begins_key(rest)
    } else {
        header.is_irap()
    }
}
