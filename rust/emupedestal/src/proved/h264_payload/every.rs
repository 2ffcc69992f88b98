// Made from crates/h264_payload/src/every.rt by tools/to-rust.

//! H.264 where every unit goes: a STAP-A has the header of its units (RFC 6184, 5.7 and 5.7.1).

use crate::proved::h26x_core::{NALU_TYPE_BITMASK, STAPA_HEADER_SIZE, STAPA_NALU_LENGTH_SIZE};
use crate::proved::h26x_packetizer::EveryFormat;
use crate::proved::h264_payload::codec::H264;

/// The NRI of a unit.
fn nri_of(unit: &[u8]) -> u8 {
    match unit.first() {
        Some(first) => *first >> 5 & 3,
        None => 0,
    }
}

/// Whether F is set.
fn is_forbidden(unit: &[u8]) -> bool {
    match unit.first() {
        Some(first) => *first & 0x80 != 0,
        None => false,
    }
}

/// The greatest NRI of units, and whether F of one of them is set.
fn highest_of(units: &[&[u8]]) -> (u8, bool) {
    let mut highest = 0;
    let mut forbidden = false;
    for unit in units {
        highest = nri_of(unit).max(highest);
        forbidden = forbidden || is_forbidden(unit);
    }
    (highest, forbidden)
}

impl EveryFormat for H264 {
    fn units_start(self) -> usize {
        STAPA_HEADER_SIZE
    }

    fn unit_start(self) -> usize {
        STAPA_NALU_LENGTH_SIZE
    }

    fn is_slice(self, unit: &[u8]) -> bool {
        match unit.first() {
            Some(first) => matches!(*first & NALU_TYPE_BITMASK, 1..=5),
            None => false,
        }
    }

    fn own_header(self, units: &[&[u8]]) -> [u8; 2] {
        let (highest, forbidden) = highest_of(units);
        let forbidden = if forbidden { 0x80 } else { 0 };
        [forbidden + highest * 32 + 24, 0]
    }

    fn has_own_header(self, unit: &[u8]) -> bool {
        match unit.first() {
            Some(first) => *first < 0x80 && matches!(*first & NALU_TYPE_BITMASK, 1..=23),
            None => false,
        }
    }
}
