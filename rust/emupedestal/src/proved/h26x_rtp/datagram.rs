// Made from crates/h26x_rtp/src/datagram.rt by tools/to-rust.

//! RTP packets read of any bytes (RFC 3550, 5.1).

use crate::proved::h26x_rtp::error::RtpError;
use crate::proved::h26x_rtp::header::{RtpExtension, RtpHeader};
use crate::proved::h26x_rtp::words::{long_in, word_in};

/// How many bytes every header has (RFC 3550, 5.1).
pub const FIXED_SIZE: usize = 12;

/// An RTP packet, a datagram's or one of a file of packets; what it bears is borrowed (RFC 3550,
/// 5.1).
#[derive(Clone, Copy, PartialEq, Eq)]
pub struct RtpDatagram<'a> {
    /// Its header.
    pub header: RtpHeader<'a>,
    /// Its payload, which is empty in a packet of padding alone.
    pub payload: &'a [u8],
    /// Its padding, whose last byte says how many bytes it has; empty where P is clear.
    pub padding: &'a [u8],
}

/// Of bytes it tells how many there are.
impl<'a> core::fmt::Debug for RtpDatagram<'a> {
    fn fmt(&self, f: &mut core::fmt::Formatter<'_>) -> core::fmt::Result {
        use crate::support::Count;
        f.debug_struct("RtpDatagram")
            .field("header", &self.header)
            .field("payload", &Count(self.payload.len()))
            .field("padding", &Count(self.padding.len()))
            .finish()
    }
}

/// How many bytes the CSRCs have, by the first byte of a header (RFC 3550, 5.1).
#[inline(always)]
fn csrcs_size(first: u8) -> usize {
    4 * usize::from(first & 0x0f)
}

/// X, by the first byte of a header (RFC 3550, 5.1).
#[inline(always)]
fn is_extended(first: u8) -> bool {
    first >> 4 & 1 != 0
}

/// P, by the first byte of a header (RFC 3550, 5.1).
#[inline(always)]
fn is_padded(first: u8) -> bool {
    first >> 5 & 1 != 0
}

/// So many bytes, and those behind them.
#[inline(always)]
fn front(bytes: &[u8], count: usize, fault: RtpError) -> Result<(&[u8], &[u8]), RtpError> {
    if bytes.len() < count {
        return Err(fault);
    }
    Ok(bytes.split_at(count))
}

/// The header extension, where there is one, and what stands behind it (RFC 3550, 5.3.1).
#[inline(always)]
fn read_extension(
    extended: bool,
    bytes: &[u8],
) -> Result<(Option<RtpExtension<'_>>, &[u8]), RtpError> {
    if !extended {
        return Ok((None, bytes));
    }
    let (head, rest) = front(bytes, 4, RtpError::ExtensionPastTheEnd)?;
    let size = 4 * usize::from(word_in(head, 2));
    let (bytes, rest) = front(rest, size, RtpError::ExtensionPastTheEnd)?;
    let profile = word_in(head, 0);
    Ok((Some(RtpExtension { profile, bytes }), rest))
}

/// Payload and padding (RFC 3550, 5.1).
#[inline(always)]
fn read_padding(padded: bool, bytes: &[u8]) -> Result<(&[u8], &[u8]), RtpError> {
    if !padded {
        return Ok((bytes, &[]));
    }
    if bytes.is_empty() {
        return Err(RtpError::PaddingTooLong);
    }
    let count = usize::from(bytes[bytes.len() - 1]);
    if bytes.len() < count {
        return Err(RtpError::PaddingTooLong);
    }
    if count == 0 {
        return Err(RtpError::PaddingOfZero);
    }
    Ok(bytes.split_at(bytes.len() - count))
}

/// The header by the bytes that every header has, and the parts behind them (RFC 3550, 5.1).
#[inline(always)]
fn header_of<'a>(
    bytes: &[u8],
    csrcs: &'a [u8],
    extension: Option<RtpExtension<'a>>,
) -> RtpHeader<'a> {
    RtpHeader {
        marker: bytes[1] >> 7 != 0,
        payload_type: bytes[1] & 0x7f,
        sequence: word_in(bytes, 2),
        timestamp: long_in(bytes, 4),
        ssrc: long_in(bytes, 8),
        csrcs,
        extension,
    }
}

/// A packet whose header has 12 bytes and which has no padding, as most are: all behind that is payload
/// (RFC 3550, 5.1).
#[inline(always)]
fn read_alone<'a>(bytes: &[u8], rest: &'a [u8]) -> RtpDatagram<'a> {
    RtpDatagram {
        header: header_of(bytes, &[], None),
        payload: rest,
        padding: &[],
    }
}

/// A packet of version 2: by the first 12 bytes what stands behind them (RFC 3550, 5.1).
#[inline(always)]
fn read_behind<'a>(bytes: &[u8], rest: &'a [u8]) -> Result<RtpDatagram<'a>, RtpError> {
    let size = csrcs_size(bytes[0]);
    let (csrcs, rest) = front(rest, size, RtpError::CsrcsPastTheEnd)?;
    let (extension, rest) = read_extension(is_extended(bytes[0]), rest)?;
    let (payload, padding) = read_padding(is_padded(bytes[0]), rest)?;
    let header = header_of(bytes, csrcs, extension);
    Ok(RtpDatagram {
        header,
        payload,
        padding,
    })
}

/// A packet, or why the bytes are none (RFC 3550, 5.1).
#[inline(always)]
fn read_datagram(bytes: &[u8]) -> Result<RtpDatagram<'_>, RtpError> {
    if bytes.len() < FIXED_SIZE {
        return Err(RtpError::TooShort);
    }
    let (_, rest) = bytes.split_at(FIXED_SIZE);
    if bytes[0] == 0x80 {
        return Ok(read_alone(bytes, rest));
    }
    let version = bytes[0] >> 6;
    if version != 2 {
        return Err(RtpError::OtherVersion(version));
    }
    read_behind(bytes, rest)
}

impl<'a> RtpDatagram<'a> {
    /// Reads an RTP packet, or says why the bytes are none (RFC 3550, 5.1).
    #[inline(always)]
    pub fn read(bytes: &'a [u8]) -> Result<RtpDatagram<'a>, RtpError> {
        read_datagram(bytes)
    }
}
