// Made from crates/h26x_packetizer/src/lowest_header.rt by tools/to-rust.

//! The header of sets that share a packet, as a setting of a packetizer.

use crate::proved::h26x_packetizer::packetizer::PayloadPacketizer;
use crate::proved::h26x_payload::PayloadFormat;

/// A codec whose sets in one packet have the header of the unit behind them, or one of their own where
/// that is set (RFC 7798, 4.4.2).
pub trait LowestHeaderFormat: PayloadFormat {
    /// The same setting, with that header or without.
    fn with_lowest_header(self, lowest_header: bool) -> Self;
}

impl<C: LowestHeaderFormat> PayloadPacketizer<C> {
    /// Sets whether parameter sets in one packet have the header that RFC 7798, 4.4.2 asks for: F where
    /// a set has it, and the lowest layer and temporal id of the sets; else they have that of the unit
    /// behind them. Sets that wait and the next number stay.
    pub fn with_lowest_header(&mut self, lowest_header: bool) {
        self.codec = self.codec.with_lowest_header(lowest_header);
    }
}
