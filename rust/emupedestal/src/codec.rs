//! What codecs are called, and what is told of their units.

use crate::{Codec, CodecExtra};
use core::fmt;

/// What SDP calls it: `H264`, `H265` or `H266` (RFC 6184, 8.1; RFC 7798, 7.1; RFC 9328, 7.2).
impl fmt::Display for Codec {
    fn fmt(&self, f: &mut fmt::Formatter<'_>) -> fmt::Result {
        f.pad(match self {
            Codec::H264 => "H264",
            Codec::H265 => "H265",
            Codec::H266 => "H266",
        })
    }
}

impl CodecExtra {
    /// Whether a unit of a keyframe is among those that are told of, of whichever codec.
    pub fn is_keyframe(&self) -> bool {
        match self {
            CodecExtra::None => false,
            CodecExtra::H264(told) => told.is_keyframe,
            CodecExtra::H265(told) => told.is_keyframe,
            CodecExtra::H266(told) => told.is_keyframe,
        }
    }
}
