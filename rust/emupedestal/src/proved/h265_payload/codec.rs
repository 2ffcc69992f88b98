// Made from crates/h265_payload/src/codec.rt by tools/to-rust.

//! The codec with its setting, which the depacketizer is made with, that which the packetizer is made
//! with, and the header of units and packets.

use crate::proved::h26x_core::H265NALUHeader;

/// H.265 (RFC 7798), and whether packets bear decoding order numbers (4.6).
#[derive(Debug, Clone, Copy, PartialEq, Eq)]
pub struct H265 {
    pub(crate) has_donl: bool,
}

/// H.265 as it is sent: whether sets that share a packet have the header of their own, or that of the
/// unit behind them (RFC 7798, 4.4.2), beside what is alike for who sends and who receives.
#[derive(Debug, Clone, Copy, PartialEq, Eq)]
pub struct H265Sending {
    pub(crate) codec: H265,
    pub(crate) lowest_header: bool,
}

/// The header of a unit or of a packet.
pub(crate) fn header_of(unit: &[u8]) -> H265NALUHeader {
    H265NALUHeader::new(unit[0], unit[1])
}
