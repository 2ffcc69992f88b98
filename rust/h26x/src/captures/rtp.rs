//! The header of RTP (RFC 3550, 5.1).

use emupedestal::rtp::{RtpDatagram, RtpExtension};
use std::ops::RangeInclusive;

/// The fixed part of the header, in bytes.
pub const HEADER: usize = 12;
/// What the second byte of RTCP's packets would be as a payload type, where both share a port (RFC
/// 5761, 4).
pub const RTCP: RangeInclusive<u8> = 64..=95;

/// An RTP packet.
#[derive(Clone, Copy)]
pub struct Rtp<'a> {
    pub marker: bool,
    pub payload_type: u8,
    pub sequence: u16,
    pub timestamp: u32,
    pub ssrc: u32,
    pub extension: Option<RtpExtension<'a>>,
    pub payload: &'a [u8],
    /// How many bytes of padding stand behind the payload.
    pub padding: u8,
}

impl Rtp<'_> {
    /// Whether it has padding alone, as senders put it between pictures to try how much a path carries, or
    /// nothing.
    pub fn is_padding(&self) -> bool {
        self.payload.is_empty()
    }
}

/// The RTP packet of a datagram, where its header makes sense, and its payload type is none of RTCP's.
pub fn rtp(datagram: &[u8]) -> Option<Rtp<'_>> {
    let RtpDatagram {
        header,
        payload,
        padding,
    } = RtpDatagram::read(datagram).ok()?;
    (!RTCP.contains(&header.payload_type)).then_some(Rtp {
        marker: header.marker,
        payload_type: header.payload_type,
        sequence: header.sequence,
        timestamp: header.timestamp,
        ssrc: header.ssrc,
        extension: header.extension,
        payload,
        padding: padding.len() as u8,
    })
}

/// The header of a packet without sources, extension and padding.
pub fn header(packet: &Rtp<'_>) -> [u8; HEADER] {
    let mut header = [0; HEADER];
    header[0] = 0x80;
    header[1] = packet.payload_type | u8::from(packet.marker) << 7;
    header[2..4].copy_from_slice(&packet.sequence.to_be_bytes());
    header[4..8].copy_from_slice(&packet.timestamp.to_be_bytes());
    header[8..12].copy_from_slice(&packet.ssrc.to_be_bytes());
    header
}
