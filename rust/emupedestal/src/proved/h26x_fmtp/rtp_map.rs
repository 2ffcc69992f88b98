// Made from crates/h26x_fmtp/src/rtp_map.rt by tools/to-rust.

//! The value of an `a=rtpmap` line.

use crate::proved::h26x_fmtp::kind::number_in;
use crate::proved::h26x_fmtp::names::same_name;
use crate::proved::h26x_fmtp::pairs::{cut, trimmed};
use crate::support::AllocError;
use alloc::vec::Vec;

/// An encoding of video, by the name that stands in an `a=rtpmap` line.
#[derive(Debug, Clone, Copy, PartialEq, Eq)]
pub enum Encoding {
    /// `H264` (RFC 6184, section 8.2.1).
    H264,
    /// `H265` (RFC 7798, section 7.2.1).
    H265,
    /// `H266` (RFC 9328, section 7.3.1).
    H266,
}

/// Why a text is no payload type of one of these encodings: the first that is wrong.
#[derive(Debug, Clone, Copy, PartialEq, Eq, Hash)]
#[non_exhaustive]
pub enum RtpMapError {
    /// What stands before the first blank is no number of 7 bits.
    PayloadType,

    /// What stands behind it, before a `/`, is none of the encodings.
    Encoding,

    /// What stands behind the `/` isn't 90000, which the RFCs ask for.
    ClockRate,
}

impl core::fmt::Display for RtpMapError {
    fn fmt(&self, f: &mut core::fmt::Formatter<'_>) -> core::fmt::Result {
        match self {
            RtpMapError::PayloadType => write!(f, "no payload type"),
            RtpMapError::Encoding => write!(f, "unknown encoding name"),
            RtpMapError::ClockRate => write!(f, "clock rate is not 90000"),
        }
    }
}

impl core::error::Error for RtpMapError {}

/// A payload type and its encoding, with a clock rate of 90000: what stands behind `a=rtpmap:`
/// (RFC 8866, section 6.6).
#[derive(Debug, Clone, Copy, PartialEq, Eq)]
pub struct RtpMap {
    /// The payload type, below 128.
    pub payload_type: u8,
    /// The encoding.
    pub encoding: Encoding,
}

impl Encoding {
    /// The encoding of a name, without regard to case.
    pub fn of_name(name: &[u8]) -> Option<Encoding> {
        if same_name(b"H264", name) {
            Some(Encoding::H264)
        } else if same_name(b"H265", name) {
            Some(Encoding::H265)
        } else if same_name(b"H266", name) {
            Some(Encoding::H266)
        } else {
            None
        }
    }

    /// Its name.
    pub fn name(self) -> &'static str {
        match self {
            Encoding::H264 => "H264",
            Encoding::H265 => "H265",
            Encoding::H266 => "H266",
        }
    }
}

/// The payload type that a text says: a number of 7 bits (RFC 3550, section 5.1). It takes no memory.
pub fn payload_type_in(text: &[u8]) -> Option<u8> {
    match number_in(text) {
        Ok(number) if number < 128 => Some(number as u8),
        _ => None,
    }
}

/// A payload type and its encoding, behind which a clock rate stands.
fn with_clock(payload_type: u8, encoding: Encoding, clock: &[u8]) -> Result<RtpMap, RtpMapError> {
    let rate = b"90000";
    if clock != rate.as_slice() {
        return Err(RtpMapError::ClockRate);
    }
    Ok(RtpMap {
        payload_type,
        encoding,
    })
}

/// A payload type, behind which an encoding name, `/` and a clock rate stand.
fn with_name(payload_type: u8, rest: &[u8]) -> Result<RtpMap, RtpMapError> {
    let (name, clock) = cut(trimmed(rest), b'/');
    match Encoding::of_name(name) {
        Some(encoding) => with_clock(payload_type, encoding, clock),
        None => Err(RtpMapError::Encoding),
    }
}

impl RtpMap {
    /// Reads what stands behind `a=rtpmap:`, without regard to the case of the name. It takes no
    /// memory.
    pub fn read(text: &[u8]) -> Result<RtpMap, RtpMapError> {
        let (payload_type, rest) = cut(trimmed(text), b' ');
        match payload_type_in(payload_type) {
            Some(payload_type) => with_name(payload_type, rest),
            None => Err(RtpMapError::PayloadType),
        }
    }

    /// Writes what stands behind `a=rtpmap:`. It is read as the same.
    pub(crate) fn write(self) -> Result<Vec<u8>, AllocError> {
        let (payload_type, name) = (self.payload_type, self.encoding.name());
        Ok(crate::support::try_format(format_args!("{payload_type} {name}/90000"))?.into_bytes())
    }
}
