// Made from crates/h26x_depacketizer/src/reader.rt by tools/to-rust.

//! How one codec's packets are read.

use crate::proved::h26x_core::PacketError;
use crate::proved::h26x_depacketizer::aggregate::Aggregate;
use crate::proved::h26x_depacketizer::parts::Parts;

/// What sets one codec's depacketizer apart: what its packets are (RFC 6184, 5; RFC 7798, 4.4; RFC
/// 9328, 4.3), and which begin and end an access unit.
pub trait PacketReader: Aggregate {
    /// What a packet is, or why it is refused. It takes no memory.
    fn read(self, packet: &[u8]) -> Result<Parts<'_>, PacketError>;

    /// Whether a packet may be the first of an access unit.
    fn may_begin(self, packet: &[u8]) -> bool;

    /// Whether a packet is the last of an access unit, with the marker bit of its RTP packet given.
    fn is_last(self, marker: bool, packet: &[u8]) -> bool;
}

/// Whether a packet is a fragment that starts, which gives up a run that is open.
pub fn starts_run<C: PacketReader>(codec: C, packet: &[u8]) -> bool {
    match codec.read(packet) {
        Ok(Parts::Fragment(fragment)) => fragment.start,
        Ok(_) | Err(_) => false,
    }
}
