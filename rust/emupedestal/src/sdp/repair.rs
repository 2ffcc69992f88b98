//! Payload types of what goes beside video, and the format of retransmission.

use super::{RepairFormat, RtpMapError, RtxError};
use crate::proved::{h26x_fmtp, h26x_sdp};
use core::fmt;
use core::str::{self, FromStr};

/// A payload type of what goes beside video, with the video's clock rate, 90000: what stands behind `a=rtpmap:` (RFC
/// 8866, section 6.6).
///
/// [`RtpMap`](super::RtpMap) reads that of a codec. To whom it belongs says of RTX [`RtxFormat`]; RED bears the payload
/// types of what is in it, and FEC of a stream of its own is told by SSRCs (`a=ssrc-group:FEC-FR`).
///
/// ```
/// use emupedestal::sdp::{RepairFormat, RepairMap, RtpMapError, RtxFormat};
///
/// let map: RepairMap = "97 rtx/90000".parse()?;
/// assert_eq!((map.payload_type(), map.format()), (97, RepairFormat::Rtx));
/// assert_eq!(map.to_string(), "97 rtx/90000");
///
/// let format: RtxFormat = "apt=96;rtx-time=3000".parse()?;
/// assert_eq!((format.payload_type(), format.rtx_time()), (96, Some(3000)));
/// assert_eq!("63 red/48000/2".parse::<RepairMap>(), Err(RtpMapError::ClockRate)); // of audio
/// # Ok::<(), Box<dyn std::error::Error>>(())
/// ```
#[derive(Debug, Clone, Copy, PartialEq, Eq, Hash)]
pub struct RepairMap {
    of: h26x_fmtp::RepairMap,
}

impl RepairMap {
    /// The payload type, which is below 128, of a format; else `None`.
    pub fn new(payload_type: u8, format: RepairFormat) -> Option<Self> {
        let of = h26x_fmtp::RepairMap {
            payload_type,
            format,
        };
        (payload_type < 128).then_some(RepairMap { of })
    }

    /// The payload type, below 128.
    pub fn payload_type(&self) -> u8 {
        self.of.payload_type
    }

    /// What it is of.
    pub fn format(&self) -> RepairFormat {
        self.of.format
    }
}

/// Reads what stands behind `a=rtpmap:`, the name without regard to case.
impl FromStr for RepairMap {
    type Err = RtpMapError;

    fn from_str(text: &str) -> Result<Self, RtpMapError> {
        let of = h26x_fmtp::RepairMap::read(text.as_bytes())?;
        Ok(RepairMap { of })
    }
}

/// Writes what stands behind `a=rtpmap:`. Where memory lacks that is a [`fmt::Error`].
impl fmt::Display for RepairMap {
    fn fmt(&self, f: &mut fmt::Formatter<'_>) -> fmt::Result {
        let text = self.of.write().map_err(|_| fmt::Error)?;
        f.write_str(str::from_utf8(&text).map_err(|_| fmt::Error)?)
    }
}

/// What stands behind the payload type in an `a=fmtp` line of [`RepairFormat::Rtx`] (RFC 4588, sections 8.3 and 8.6).
#[derive(Debug, Clone, Copy, PartialEq, Eq, Hash)]
pub struct RtxFormat {
    of: h26x_sdp::RtxFormat,
}

impl RtxFormat {
    /// The format of packets that were first sent with a payload type, which is below 128; else `None`.
    pub fn new(payload_type: u8, rtx_time: Option<u64>) -> Option<Self> {
        let of = h26x_sdp::RtxFormat {
            payload_type,
            rtx_time,
        };
        (payload_type < 128).then_some(RtxFormat { of })
    }

    /// `apt`: the payload type that the packets were first sent with, below 128.
    pub fn payload_type(&self) -> u8 {
        self.of.payload_type
    }

    /// `rtx-time`: for how many milliseconds a packet can be sent again; not said where it's absent.
    pub fn rtx_time(&self) -> Option<u64> {
        self.of.rtx_time
    }
}

/// Reads what stands behind the payload type. An `apt` that is absent, given twice or above 127 is refused.
impl FromStr for RtxFormat {
    type Err = RtxError;

    fn from_str(text: &str) -> Result<Self, RtxError> {
        let of = h26x_sdp::RtxFormat::read(text.as_bytes())?;
        Ok(RtxFormat { of })
    }
}

/// Writes what stands behind the payload type. Where memory lacks that is a [`fmt::Error`].
impl fmt::Display for RtxFormat {
    fn fmt(&self, f: &mut fmt::Formatter<'_>) -> fmt::Result {
        let text = self.of.write().map_err(|_| fmt::Error)?;
        f.write_str(str::from_utf8(&text).map_err(|_| fmt::Error)?)
    }
}
