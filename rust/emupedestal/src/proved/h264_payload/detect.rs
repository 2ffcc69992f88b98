// Made from crates/h264_payload/src/detect.rt by tools/to-rust.

//! Whether a packet is known to hold a unit of a type, or to begin one (str0m's rule).

use crate::proved::h26x_core::{
    FU_START_BITMASK, FUA_HEADER_SIZE, FUA_NALU_TYPE, IDR_NALU_TYPE, NALU_TYPE_BITMASK,
    STAPA_HEADER_SIZE, STAPA_NALU_TYPE,
};
use crate::proved::h26x_depacketizer::Aggregate;
use crate::proved::h264_payload::codec::H264;

/// The type of a unit (RFC 6184, 1.3); 0 where it is empty.
fn unit_type(unit: &[u8]) -> u8 {
    match unit.first() {
        Some(header) => header & NALU_TYPE_BITMASK,
        None => 0,
    }
}

/// Whether a unit of this type stands behind a STAP-A's header, up to a length that passes its end.
fn stap_holds(bytes: &[u8], target_nalu: u8) -> bool {
    let mut rest = bytes;
    while let Some((unit, behind)) = H264.first_unit(rest) {
        if unit_type(unit) == target_nalu {
            return true;
        }
        rest = behind;
    }
    false
}

/// Whether a packet is known to hold a unit of this type (RFC 6184, 1.3), or to be the first
/// fragment of one (FU-A, 5.8). The units of a STAP-A (5.7.1) are looked at up to a length that
/// passes its end.
pub fn detect_h264_nalu(payload: &[u8], target_nalu: u8) -> bool {
    if payload.is_empty() {
        return false;
    }
    match payload[0] & NALU_TYPE_BITMASK {
        STAPA_NALU_TYPE => stap_holds(&payload[STAPA_HEADER_SIZE..], target_nalu),
        FUA_NALU_TYPE => {
            payload.len() >= FUA_HEADER_SIZE
                && payload[1] & FU_START_BITMASK != 0
                && payload[1] & NALU_TYPE_BITMASK == target_nalu
        }
        nalu_type => (1..=23).contains(&nalu_type) && nalu_type == target_nalu,
    }
}

/// Whether a packet is known to hold a slice of an IDR picture, type 5, or to be the first fragment
/// of one (RFC 6184, 1.3, 5.7.1 and 5.8).
pub fn detect_h264_keyframe(payload: &[u8]) -> bool {
    detect_h264_nalu(payload, IDR_NALU_TYPE)
}
