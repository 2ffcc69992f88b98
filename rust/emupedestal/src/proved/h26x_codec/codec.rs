// Made from crates/h26x_codec/src/codec.rt by tools/to-rust.

//! Which codecs there are.

use crate::proved::h26x_cut::ZeroRule;

/// A codec whose payload format is known.
#[cfg_attr(feature = "serde", derive(serde::Serialize, serde::Deserialize))]
#[derive(Debug, Clone, Copy, PartialEq, Eq, Hash)]
pub enum Codec {
    /// H.264 (RFC 6184).
    H264,
    /// H.265 (RFC 7798).
    H265,
    /// H.266 (RFC 9328).
    H266,
}

impl Codec {
    /// How payloads of the codec are cut at their start codes (Annex B of H.264, H.265 and H.266).
    pub(crate) fn zero_rule(self) -> ZeroRule {
        match self {
            Codec::H264 | Codec::H265 => ZeroRule::All,
            Codec::H266 => ZeroRule::AtMostThree,
        }
    }
}

/// What is done with the end that another holds, of whichever codec it is.
macro_rules! with_held {
    ($end:expr, |$it:ident| $call:expr) => {
        match $end {
            Self::H264($it) => $call,
            Self::H265($it) => $call,
            Self::H266($it) => $call,
        }
    };
}

pub(crate) use with_held;
