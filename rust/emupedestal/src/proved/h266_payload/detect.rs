// Made from crates/h266_payload/src/detect.rt by tools/to-rust.

//! Whether a packet is known to hold a key unit, or to begin one (str0m's rule).

use crate::proved::h26x_core::{H266FragmentationUnitHeader, H266NALUHeader};
use crate::proved::h26x_depacketizer::holds_key;
use crate::proved::h26x_payload::PayloadFormat;
use crate::proved::h266_payload::codec::{H266, header_of};
use crate::proved::h266_payload::packet::PACKET_HEADER_SIZE;

/// Whether what stands behind a fragment's header begins a key unit (RFC 9328, 4.3.3).
fn begins_key(rest: &[u8]) -> bool {
    if rest.is_empty() {
        return false;
    }
    let fu = H266FragmentationUnitHeader(rest[0]);
    fu.s() && H266NALUHeader::new_with_type(fu.fu_type(), 0, 0).is_irap()
}

/// Whether a packet is known to hold a slice of an IDR or CRA picture, or to be the first fragment
/// of one (RFC 9328, 4.3).
///
/// F is not looked at, and no decoding order number is expected. The units of an aggregate are
/// looked at up to one that has no whole header or passes the end.
pub fn detect_h266_keyframe(payload: &[u8]) -> bool {
    if payload.len() < PACKET_HEADER_SIZE {
        return false;
    }
    let header = header_of(payload);
    let rest = &payload[PACKET_HEADER_SIZE..];
    if header.is_aggregation_packet() {
        holds_key(H266::new(), rest)
    } else if header.is_fragmentation_unit() {
        begins_key(rest)
    } else {
        header.is_irap()
    }
}
