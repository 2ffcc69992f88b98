// Made from crates/h26x_rtp/src/rtx.rt by tools/to-rust.

//! Retransmission packets (RFC 4588).

use crate::proved::h26x_rtp::datagram::RtpDatagram;
use crate::proved::h26x_rtp::error::RtpWriteError;
use crate::proved::h26x_rtp::header::RtpHeader;
use crate::proved::h26x_rtp::memory::{put, write_behind};
use crate::proved::h26x_rtp::words::word_in;

/// What the payload of a retransmission packet says (RFC 4588, 4).
#[derive(Clone, Copy, PartialEq, Eq)]
pub struct RtxPayload<'a> {
    /// The original sequence number (OSN).
    pub sequence: u16,
    /// The original payload.
    pub payload: &'a [u8],
}

/// Of bytes it tells how many there are.
impl<'a> core::fmt::Debug for RtxPayload<'a> {
    fn fmt(&self, f: &mut core::fmt::Formatter<'_>) -> core::fmt::Result {
        use crate::support::Count;
        f.debug_struct("RtxPayload")
            .field("sequence", &self.sequence)
            .field("payload", &Count(self.payload.len()))
            .finish()
    }
}

impl<'a> RtxPayload<'a> {
    /// Reads the payload of a retransmission packet; there is none where it has fewer than two
    /// bytes, as in a packet of padding alone (RFC 4588, 4).
    pub fn read(bytes: &'a [u8]) -> Option<RtxPayload<'a>> {
        if bytes.len() < 2 {
            return None;
        }
        let (_, payload) = bytes.split_at(2);
        let sequence = word_in(bytes, 0);
        Some(RtxPayload { sequence, payload })
    }

    /// Writes the payload of a retransmission packet to the front of memory; how many bytes it has
    /// (RFC 4588, 4).
    pub fn write(self, to: &mut [u8]) -> Result<usize, RtpWriteError> {
        write_behind(&self.sequence.to_be_bytes(), self.payload, to)
    }
}

/// Writes a retransmission packet to the front of memory where there is room for it.
fn put_rtx(header: RtpHeader<'_>, sequence: u16, payload: &[u8], to: &mut [u8]) {
    let behind = header.put(false, 0, to);
    let behind = put(&sequence.to_be_bytes(), behind, to);
    put(payload, behind, to);
}

/// Writes a retransmission packet of this header.
fn write_rtx(
    header: RtpHeader<'_>,
    sequence: u16,
    payload: &[u8],
    to: &mut [u8],
) -> Result<usize, RtpWriteError> {
    header.test()?;
    let size = header
        .size()
        .saturating_add(2)
        .saturating_add(payload.len());
    if to.len() < size {
        return Err(RtpWriteError::NoRoom(size));
    }
    put_rtx(header, sequence, payload, to);
    Ok(size)
}

impl<'a> RtpDatagram<'a> {
    /// The packet that this retransmission packet bears, of the payload type and the SSRC of its
    /// stream; none where the payload has fewer than two bytes (RFC 4588, 4). Padding is left out.
    pub fn original(self, payload_type: u8, ssrc: u32) -> Option<RtpDatagram<'a>> {
        let it = RtxPayload::read(self.payload)?;
        let header = RtpHeader {
            payload_type,
            sequence: it.sequence,
            ssrc,
            ..self.header
        };
        Some(RtpDatagram {
            header,
            payload: it.payload,
            padding: &[],
        })
    }

    /// Writes the retransmission packet of this packet, of another payload type and SSRC, to the
    /// front of memory; how many bytes it has, or why it isn't written (RFC 4588, 4). Padding is left
    /// out.
    pub fn write_rtx(
        self,
        payload_type: u8,
        sequence: u16,
        ssrc: u32,
        to: &mut [u8],
    ) -> Result<usize, RtpWriteError> {
        let header = RtpHeader {
            payload_type,
            sequence,
            ssrc,
            ..self.header
        };
        write_rtx(header, self.header.sequence, self.payload, to)
    }
}
