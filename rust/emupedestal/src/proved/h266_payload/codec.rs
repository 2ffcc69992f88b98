// Made from crates/h266_payload/src/codec.rt by tools/to-rust.

//! The codec with its setting, which the packetizer and the depacketizer are made with, and the
//! header of units and packets.

use crate::proved::h26x_core::H266NALUHeader;

/// H.266 (RFC 9328), and whether packets bear decoding order numbers (4.4).
#[derive(Debug, Clone, Copy, PartialEq, Eq)]
pub struct H266 {
    pub(crate) has_donl: bool,
}

/// The header of a unit or of a packet.
pub(crate) fn header_of(unit: &[u8]) -> H266NALUHeader {
    H266NALUHeader::new(unit[0], unit[1])
}

/// The second byte of a header with another type; the temporal id is kept.
pub(crate) fn with_type(low: u8, nalu_type: u8) -> u8 {
    nalu_type * 8 + (low & 7)
}
