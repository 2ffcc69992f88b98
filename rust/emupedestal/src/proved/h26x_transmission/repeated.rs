// Made from crates/h26x_transmission/src/repeated.rt by tools/to-rust.

//! Payloads sent, written, and sent again.

use crate::Codec;
use crate::proved::h26x_transmission::depacketizer::CodecDepacketizer;
use crate::proved::h26x_transmission::packetizer::CodecPacketizer;
use crate::proved::h26x_transmission::transmissions::deliver;
use crate::support::TryVec;
use crate::{CodecExtra, PacketError, Packetizer};
use crate::{H264Depacketizer, H264Packetizer};
use crate::{H265Depacketizer, H265Packetizer};
use crate::{H266Depacketizer, H266Packetizer};
use alloc::vec::Vec;

/// A packetizer of a codec with this setting for numbers and this largest packet size.
fn packetizer_with(codec: Codec, donl: bool, max_packet_size: u16) -> CodecPacketizer {
    match codec {
        Codec::H264 => CodecPacketizer::H264(H264Packetizer::new()),
        Codec::H265 => {
            let mut it = H265Packetizer::new();
            it.with_donl(donl);
            it.with_max_packet_size(max_packet_size);
            CodecPacketizer::H265(it)
        }
        Codec::H266 => {
            let mut it = H266Packetizer::new();
            it.with_donl(donl);
            it.with_max_packet_size(max_packet_size);
            CodecPacketizer::H266(it)
        }
    }
}

/// A depacketizer of a codec with this setting for numbers.
fn depacketizer_with(codec: Codec, donl: bool) -> CodecDepacketizer {
    match codec {
        Codec::H264 => CodecDepacketizer::H264(H264Depacketizer::new()),
        Codec::H265 => {
            let mut it = H265Depacketizer::new();
            it.with_donl(donl);
            CodecDepacketizer::H265(it)
        }
        Codec::H266 => {
            let mut it = H266Depacketizer::new();
            it.with_donl(donl);
            CodecDepacketizer::H266(it)
        }
    }
}

/// The packets of payloads at one limit, one payload after the other.
fn packetize_all(
    p: &mut CodecPacketizer,
    limit: usize,
    payloads: &[impl AsRef<[u8]>],
) -> Result<Vec<Vec<u8>>, PacketError> {
    let mut packets = Vec::new();
    for payload in payloads {
        let mut made = p.packetize(limit, payload.as_ref())?;
        packets.try_append(&mut made)?;
    }
    Ok(packets)
}

/// What was sent, written, and sent again.
#[derive(Clone, PartialEq, Eq, Hash)]
pub struct Repeated {
    /// The packets of all payloads.
    pub first: Vec<Vec<u8>>,
    /// What a depacketizer writes for them, in Annex B.
    pub written: Vec<u8>,
    /// The packets of that as one payload.
    pub second: Vec<Vec<u8>>,
}

/// Of bytes it tells how many there are.
impl core::fmt::Debug for Repeated {
    fn fmt(&self, f: &mut core::fmt::Formatter<'_>) -> core::fmt::Result {
        use crate::support::Count;
        use crate::support::Counts;
        f.debug_struct("Repeated")
            .field("first", &Counts(&self.first))
            .field("written", &Count(self.written.len()))
            .field("second", &Counts(&self.second))
            .finish()
    }
}

/// Sends payloads by `p`, writes their packets by `d`, and sends what was written by `q`.
fn again_with(
    p: &mut CodecPacketizer,
    d: &mut CodecDepacketizer,
    q: &mut CodecPacketizer,
    limit: usize,
    payloads: &[impl AsRef<[u8]>],
) -> Result<Repeated, PacketError> {
    let first = packetize_all(p, limit, payloads)?;
    let mut written = Vec::new();
    let mut extra = CodecExtra::None;
    deliver(d, &first, &mut written, &mut extra)?;
    let second = q.packetize(limit, &written)?;
    Ok(Repeated {
        first,
        written,
        second,
    })
}

/// Sends payloads at one limit in bytes, one call each, writes their packets in Annex B, and sends
/// what was written as one payload at the same limit. Packetizers and depacketizer are fresh ones of
/// `codec`.
///
/// `donl` sets all three up for decoding order numbers, and `max_packet_size`, 4 or more, is the
/// largest packet size of both packetizers; H.264 has neither. The error is `OutOfMemory`, or the
/// refusal of the first packet of `first` that a depacketizer refuses. Where packets can carry each
/// unit sent, none is dropped for its size and, for H.264 and H.265, none but the last ends in a zero
/// byte, `second` is `first`.
///
/// # Panics
///
/// Unless `4 <= max_packet_size`.
pub fn again(
    codec: Codec,
    donl: bool,
    max_packet_size: u16,
    limit: usize,
    payloads: &[impl AsRef<[u8]>],
) -> Result<Repeated, PacketError> {
    assert!(4 <= max_packet_size);
    let mut p = packetizer_with(codec, donl, max_packet_size);
    let mut d = depacketizer_with(codec, donl);
    let mut q = packetizer_with(codec, donl, max_packet_size);
    again_with(&mut p, &mut d, &mut q, limit, payloads)
}
