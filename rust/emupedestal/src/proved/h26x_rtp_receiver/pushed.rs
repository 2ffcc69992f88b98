// Made from crates/h26x_rtp_receiver/src/pushed.rt by tools/to-rust.

//! What became of a datagram that was given to a receiver.

use crate::proved::h26x_access_units::Pushed;
use crate::proved::h26x_core::PacketError;
use crate::proved::h26x_rtp::{RedError, RtpError};
use crate::proved::h26x_rtp_receiver::original::NoMedia;

/// A packet of the stream that a datagram brought.
#[derive(Debug, Clone, Copy, PartialEq, Eq)]
pub struct RtpTaken {
    /// Its number in the stream.
    pub sequence: u16,
    /// Whether it came as a retransmission (RFC 4588).
    pub is_recovered: bool,
    /// Why it bears nothing of the codec, where it doesn't: its number isn't missing.
    pub no_media: Option<NoMedia>,
    /// What became of it: a retransmission of a packet that came is told `Twice` or `Late`.
    pub pushed: Pushed,
}

/// What became of a datagram that was given to a receiver. But for a packet of the stream it changed
/// nothing.
#[derive(Debug, Clone, Copy, PartialEq, Eq)]
pub enum RtpPushed {
    /// It brought this packet of the stream.
    Packet(RtpTaken),

    /// It is RTCP (RFC 5761).
    Rtcp,

    /// It is a packet of the codec or of RED from another source, of this SSRC: another stream, or this
    /// one with a new SSRC, which `follow` takes.
    NewSource(u32),

    /// It is any other packet from another source, of this SSRC: as a retransmission of another stream,
    /// or of which it isn't known which stream it is of.
    OtherSource(u32),

    /// It is a retransmission of no packet, as a probe.
    Probe,
}

/// Why a datagram isn't taken; all stays as it was.
#[derive(Debug, Clone, Copy, PartialEq, Eq)]
#[non_exhaustive]
pub enum RtpPushError {
    /// It is no RTP packet.
    Rtp(RtpError),

    /// Its redundant payload is none: its number stays missing, since it may have borne a packet.
    Red(RedError),

    /// There is no memory. It can be given again.
    Packet(PacketError),
}

impl core::fmt::Display for RtpPushError {
    fn fmt(&self, f: &mut core::fmt::Formatter<'_>) -> core::fmt::Result {
        match self {
            RtpPushError::Rtp(of_0) => write!(f, "{of_0}"),
            RtpPushError::Red(of_0) => write!(f, "{of_0}"),
            RtpPushError::Packet(of_0) => write!(f, "{of_0}"),
        }
    }
}

impl core::error::Error for RtpPushError {}
