// Made from crates/h26x_core/src/error.rt by tools/to-rust.

//! Why a packet or a payload is refused.

use crate::support::AllocError;

/// Why a call is refused. A refused call changes nothing, but for a packetizer of a caller's own in
/// the box of a `CodecPacketizer`: where memory lacks for the copy of its packets into a buffer, it
/// has gone on, and they are lost.
///
/// The packets are those of RFC 6184 (H.264), RFC 7798 (H.265) and RFC 9328 (H.266).
#[derive(Debug, Clone, Copy, PartialEq, Eq, Hash)]
#[non_exhaustive]
pub enum PacketError {
    /// The packet ends before what its type asks for (RFC 6184, 5.6 to 5.8; RFC 7798, 4.4; RFC
    /// 9328, 4.3).
    ErrShortPacket,

    /// H.264: a packet of this type is none that a depacketizer reads (RFC 6184, 5.2 and 5.4).
    NaluTypeIsNotHandled(u8),

    /// H.264: a STAP-A gives this length where only so many bytes are left (RFC 6184, 5.7.1).
    StapASizeLargerThanBuffer(usize, usize),

    /// H.265: the packet's forbidden bit is set (RFC 7798, 1.1.4 and 4.2).
    ErrH265CorruptedPacket,

    /// H.265: an extension of a PACI packet has at most 31 bytes (RFC 7798, 4.4.4).
    ErrH265PACIPHESTooLong,

    /// H.266: the packet's forbidden bit is set, or an aggregate holds an aggregate or a fragment
    /// (RFC 9328, 1.1.4 and 4.3.2).
    ErrH266CorruptedPacket,

    /// Behind lengths, of every codec: the unit's length doesn't fit four bytes (ISO/IEC 14496-15).
    AvcUnitTooLong,

    /// The allocator had no memory.
    OutOfMemory,
}

impl core::fmt::Display for PacketError {
    fn fmt(&self, f: &mut core::fmt::Formatter<'_>) -> core::fmt::Result {
        match self {
            PacketError::ErrShortPacket => write!(f, "packet is too short"),
            PacketError::NaluTypeIsNotHandled(of_0) => {
                write!(f, "NAL unit type {of_0} is not handled")
            }
            PacketError::StapASizeLargerThanBuffer(of_0, of_1) => {
                write!(f, "STAP-A unit of {of_0} bytes, {of_1} left")
            }
            PacketError::ErrH265CorruptedPacket => write!(f, "corrupted H.265 packet"),
            PacketError::ErrH265PACIPHESTooLong => {
                write!(f, "PACI extension is longer than 31 bytes")
            }
            PacketError::ErrH266CorruptedPacket => write!(f, "corrupted H.266 packet"),
            PacketError::AvcUnitTooLong => write!(f, "unit is too long for an AVC length"),
            PacketError::OutOfMemory => write!(f, "out of memory"),
        }
    }
}

impl core::error::Error for PacketError {}

impl From<AllocError> for PacketError {
    fn from(_e: AllocError) -> PacketError {
        PacketError::OutOfMemory
    }
}
