// Made from crates/h26x_packetizer/src/sink.rt by tools/to-rust.

//! Where packets go.

use crate::proved::h26x_packetizer::body::{Body, put_packet};
use crate::support::AllocError;
use crate::support::TryVec;
use alloc::vec::Vec;

/// How many packets a list takes room for at first.
const FIRST_PACKETS: usize = 16;

/// What packets are appended to: a list of them, one buffer, or a list of their parts.
pub(crate) trait PacketSink<'a> {
    /// Appends a packet of these parts, one behind the other.
    fn try_push(&mut self, header: &[u8], donl: &[u8], body: Body<'a>) -> Result<(), AllocError>;

    /// Reserves room for so many packets more, but none for their bytes.
    fn try_reserve(&mut self, count: usize) -> Result<(), AllocError>;
}

impl<'a> PacketSink<'a> for Vec<Vec<u8>> {
    #[inline(always)]
    fn try_push(&mut self, header: &[u8], donl: &[u8], body: Body<'a>) -> Result<(), AllocError> {
        let len = header
            .len()
            .saturating_add(donl.len())
            .saturating_add(body.len());
        let mut packet = Vec::try_with_room(len)?;
        put_packet(0, header, donl, body, &mut packet);
        TryVec::try_push(self, packet)?;
        Ok(())
    }

    #[inline(always)]
    fn try_reserve(&mut self, count: usize) -> Result<(), AllocError> {
        let least = if self.is_empty() { FIRST_PACKETS } else { 0 };
        crate::support::try_reserve(self, count.max(least))
    }
}
