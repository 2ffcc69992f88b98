// Made from crates/h26x_rtp_sender/src/stream.rt by tools/to-rust.

//! A stream of packets, by its SSRC.

/// The packets of one SSRC that go out (RFC 3550, 5.1).
#[derive(Debug, Clone, Copy, PartialEq, Eq)]
pub struct RtpStream {
    /// The SSRC.
    pub ssrc: u32,
    /// The payload type, below 128.
    pub payload_type: u8,
    /// The sequence number of the next packet; that of the first should be random (RFC 3550, 5.1).
    pub sequence: u16,
}

impl RtpStream {
    /// The stream once so many packets of it went.
    pub(crate) fn behind(self, count: usize) -> Self {
        RtpStream {
            sequence: self.sequence.wrapping_add((count % 65536) as u16),
            ..self
        }
    }
}
