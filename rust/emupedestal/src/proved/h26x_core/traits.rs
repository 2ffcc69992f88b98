// Made from crates/h26x_core/src/traits.rt by tools/to-rust.

//! Packetizers and depacketizers of any codec, and the laws that each keeps.

use crate::proved::h26x_core::error::PacketError;
use crate::proved::h26x_core::extra::CodecExtra;
use alloc::vec::Vec;
use core::fmt;

/// Cuts payloads into RTP payloads under a size limit (RFC 6184, 6; RFC 7798, 5; RFC 9328, 5).
///
/// An implementation names its meaning, a list of byte lists: what its later answers depend on.
pub trait Packetizer: fmt::Debug {
    /// The RTP payloads of the encoded payload `b`, made for a limit of `mtu` bytes; the contract
    /// of an implementation says which they are.
    ///
    /// A refusal leaves the meaning.
    fn packetize(&mut self, mtu: usize, b: &[u8]) -> Result<Vec<Vec<u8>>, PacketError>;

    /// Whether the RTP packet with the payload `data` bears the marker bit (RFC 6184, 5.1; RFC
    /// 7798, 4.1; RFC 9328, 4.1): `last` says that it is the last of its access unit, `previous` is
    /// the payload before it.
    fn is_marker(&mut self, data: &[u8], previous: Option<&[u8]>, last: bool) -> bool;

    /// Whether the marker bit marks the start of a talkspurt (RFC 3551, 4.1). It does so for no
    /// video codec; an audio codec says otherwise.
    #[allow(dead_code, reason = "tests have it")]
    fn marks_talkspurt(&self) -> bool {
        false
    }

    /// Whether a receiver may ask for a lost packet again, by a generic NACK (RFC 4585, 6.2.1).
    #[allow(dead_code, reason = "tests have it")]
    fn nackable(&self) -> bool {
        true
    }
}

/// Puts units together from RTP payloads (RFC 6184, 7; RFC 7798, 6; RFC 9328, 6).
///
/// An implementation names its meaning, a list of byte lists: what its later answers depend on.
pub trait Depacketizer: fmt::Debug {
    /// How many bytes the units of packets of this many bytes may take when they are written.
    fn out_size_hint(&self, packets_size: usize) -> Option<usize>;

    /// Appends the units that `packet` completes to `out`, and tells of them in `codec_extra`.
    ///
    /// The bytes that stood in `out` stay. A refusal leaves `out`, the extra and the meaning.
    fn depacketize(
        &mut self,
        packet: &[u8],
        out: &mut Vec<u8>,
        codec_extra: &mut CodecExtra,
    ) -> Result<(), PacketError>;

    /// Whether `packet` may be the first of an access unit.
    fn is_partition_head(&self, packet: &[u8]) -> bool;

    /// Whether `packet` is the last of an access unit, with the marker bit of its RTP packet given
    /// (RFC 6184, 5.1; RFC 7798, 4.1; RFC 9328, 4.1).
    fn is_partition_tail(&self, marker: bool, packet: &[u8]) -> bool;
}
