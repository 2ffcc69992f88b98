// Made from crates/h26x_reorder/src/numbered.rt by tools/to-rust.

//! Packets that are put in order.

use crate::proved::h26x_reorder::buffer::HeldPacket;
use crate::proved::h26x_reorder::packet::RtpPacket;

/// What has a sequence number: a packet that is held, or a reference to one of a list.
pub(crate) trait Numbered {
    /// Its sequence number.
    fn sequence(&self) -> u16;
}

impl Numbered for HeldPacket {
    #[inline]
    fn sequence(&self) -> u16 {
        self.sequence
    }
}

impl<'a, 'b> Numbered for &'a RtpPacket<'b> {
    #[inline]
    fn sequence(&self) -> u16 {
        let packet: &RtpPacket<'b> = *self;
        packet.sequence
    }
}
