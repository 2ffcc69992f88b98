// Made from crates/h26x_rtp/src/header.rt by tools/to-rust.

//! The header of an RTP packet (RFC 3550, 5.1).

/// A header extension (RFC 3550, 5.3.1).
#[derive(Clone, Copy, PartialEq, Eq)]
pub struct RtpExtension<'a> {
    /// 16 bits that a profile defines: by RFC 8285 the form of the elements in `bytes`.
    pub profile: u16,
    /// What stands behind the length: whole words of four bytes.
    pub bytes: &'a [u8],
}

/// Of bytes it tells how many there are.
impl<'a> core::fmt::Debug for RtpExtension<'a> {
    fn fmt(&self, f: &mut core::fmt::Formatter<'_>) -> core::fmt::Result {
        use crate::support::Count;
        f.debug_struct("RtpExtension")
            .field("profile", &self.profile)
            .field("bytes", &Count(self.bytes.len()))
            .finish()
    }
}

/// The header of an RTP packet (RFC 3550, 5.1). Version and P, whether the packet ends in padding,
/// are no part of it.
#[derive(Clone, Copy, PartialEq, Eq)]
pub struct RtpHeader<'a> {
    /// M, by the payload formats of video the last packet of an access unit.
    pub marker: bool,
    /// The payload type, below 128.
    pub payload_type: u8,
    /// The sequence number.
    pub sequence: u16,
    /// The timestamp.
    pub timestamp: u32,
    /// The SSRC.
    pub ssrc: u32,
    /// The CSRCs as they stand, four bytes each, at most 15.
    pub csrcs: &'a [u8],
    /// The header extension, where X is set.
    pub extension: Option<RtpExtension<'a>>,
}

/// Of bytes it tells how many there are.
impl<'a> core::fmt::Debug for RtpHeader<'a> {
    fn fmt(&self, f: &mut core::fmt::Formatter<'_>) -> core::fmt::Result {
        use crate::support::Count;
        f.debug_struct("RtpHeader")
            .field("marker", &self.marker)
            .field("payload_type", &self.payload_type)
            .field("sequence", &self.sequence)
            .field("timestamp", &self.timestamp)
            .field("ssrc", &self.ssrc)
            .field("csrcs", &Count(self.csrcs.len()))
            .field("extension", &self.extension)
            .finish()
    }
}
