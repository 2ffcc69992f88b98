//! Payload types.

use super::RtpMapError;
use crate::Codec;
use crate::proved::h26x_fmtp::{self as proved, Encoding};
use core::fmt;
use core::str::{self, FromStr};

/// A payload type and its codec, with a clock rate of 90000: what stands behind `a=rtpmap:` (RFC 8866, section 6.6).
///
/// Whoever goes through the lines of a session takes [`RtpMapError::Encoding`] as a line of another codec.
///
/// ```
/// use emupedestal::Codec;
/// use emupedestal::sdp::{RtpMap, RtpMapError};
///
/// let map: RtpMap = "98 h265/90000".parse()?;
/// assert_eq!((map.payload_type(), map.codec()), (98, Codec::H265));
/// assert_eq!(map.to_string(), "98 H265/90000");
/// assert_eq!("99 rtx/90000".parse::<RtpMap>(), Err(RtpMapError::Encoding));
/// assert_eq!(RtpMap::new(128, Codec::H264), None);
/// # Ok::<(), RtpMapError>(())
/// ```
#[derive(Debug, Clone, Copy, PartialEq, Eq, Hash)]
pub struct RtpMap {
    payload_type: u8,
    codec: Codec,
}

impl RtpMap {
    /// The payload type, which is below 128, of a codec; else `None`.
    pub fn new(payload_type: u8, codec: Codec) -> Option<Self> {
        let map = RtpMap {
            payload_type,
            codec,
        };
        (payload_type < 128).then_some(map)
    }

    /// The payload type, below 128.
    pub fn payload_type(&self) -> u8 {
        self.payload_type
    }

    /// The codec.
    pub fn codec(&self) -> Codec {
        self.codec
    }
}

/// Reads what stands behind `a=rtpmap:`, the name of the codec without regard to case.
impl FromStr for RtpMap {
    type Err = RtpMapError;

    fn from_str(text: &str) -> Result<Self, RtpMapError> {
        let read = proved::RtpMap::read(text.as_bytes())?;
        Ok(RtpMap {
            payload_type: read.payload_type,
            codec: match read.encoding {
                Encoding::H264 => Codec::H264,
                Encoding::H265 => Codec::H265,
                Encoding::H266 => Codec::H266,
            },
        })
    }
}

/// Writes what stands behind `a=rtpmap:`. Where memory lacks that is a [`fmt::Error`].
impl fmt::Display for RtpMap {
    fn fmt(&self, f: &mut fmt::Formatter<'_>) -> fmt::Result {
        let map = proved::RtpMap {
            payload_type: self.payload_type,
            encoding: match self.codec {
                Codec::H264 => Encoding::H264,
                Codec::H265 => Encoding::H265,
                Codec::H266 => Encoding::H266,
            },
        };
        let text = map.write().map_err(|_| fmt::Error)?;
        f.write_str(str::from_utf8(&text).map_err(|_| fmt::Error)?)
    }
}
