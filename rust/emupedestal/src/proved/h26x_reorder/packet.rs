// Made from crates/h26x_reorder/src/packet.rt by tools/to-rust.

//! What a receiver reads of an RTP packet.

/// What a receiver reads of an RTP packet (RFC 3550, 5.1).
#[derive(Clone, Copy, PartialEq, Eq, Hash)]
pub struct RtpPacket<'a> {
    /// Its sequence number.
    pub sequence: u16,
    /// Its timestamp.
    pub timestamp: u32,
    /// Its marker bit, which the last packet of an access unit bears.
    pub marker: bool,
    /// Its payload.
    pub payload: &'a [u8],
}

/// Of bytes it tells how many there are.
impl<'a> core::fmt::Debug for RtpPacket<'a> {
    fn fmt(&self, f: &mut core::fmt::Formatter<'_>) -> core::fmt::Result {
        use crate::support::Count;
        f.debug_struct("RtpPacket")
            .field("sequence", &self.sequence)
            .field("timestamp", &self.timestamp)
            .field("marker", &self.marker)
            .field("payload", &Count(self.payload.len()))
            .finish()
    }
}
