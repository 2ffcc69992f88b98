//! What a stream says of itself.

use super::{CodecParameters, H264Parameter, H265Parameter, H266Parameter, StreamError};
use crate::proved::h26x_stream_parameters as proved;

macro_rules! from_stream {
    ($parameter:ident, $of_units:ident, $of_payload:ident, $said:literal, $sections:literal, $example:literal) => {
        impl CodecParameters<$parameter> {
            #[doc = concat!("What a sender says of its stream, out of the units that it begins with: ", $said)]
            #[doc = concat!("(", $sections, ").")]
            ///
            /// The sets are those before the first slice, and the first SPS of the lowest layer says profile and level: that
            /// the others say the same is for the caller to see. Set what else is to be said behind it.
            ///
            /// # Errors
            ///
            /// Where no parameter set says a profile and a level before the first slice, or the one that would is too
            /// short for it.
            pub fn of_units(units: &[&[u8]]) -> Result<Self, StreamError> {
                let of = proved::$of_units(units)?;
                Ok(CodecParameters { of })
            }

            /// The same out of the bytes that a stream begins with, in Annex B form.
            ///
            /// ```
            #[doc = $example]
            /// # Ok::<(), emupedestal::sdp::StreamError>(())
            /// ```
            ///
            /// # Errors
            ///
            /// As of [`of_units`](Self::of_units).
            pub fn of_payload(payload: &[u8]) -> Result<Self, StreamError> {
                let of = proved::$of_payload(payload)?;
                Ok(CodecParameters { of })
            }
        }
    };
}

from_stream!(
    H264Parameter,
    h264_of_units,
    h264_of_payload,
    "`profile-level-id`, `sprop-parameter-sets`, and `packetization-mode=1`, as packetizers send",
    "RFC 6184, section 8.1",
    r#"use emupedestal::sdp::H264Parameters;

let stream = [0, 0, 1, 0x67, 0x42, 0xc0, 0x1f, 0, 0, 1, 0x68, 0xce, 0, 0, 1, 0x65, 0x88];
let format = H264Parameters::of_payload(&stream)?;
assert_eq!(format.to_string(), "profile-level-id=42c01f;sprop-parameter-sets=Z0LAHw==,aM4=;packetization-mode=1");"#
);

from_stream!(
    H265Parameter,
    h265_of_units,
    h265_of_payload,
    "profile, tier and level with their constraints, `sprop-vps`, `sprop-sps` and `sprop-pps`",
    "RFC 7798, section 7.1",
    r#"use emupedestal::sdp::H265Parameters;

let sps = [0x42, 1, 1, 0x01, 0x60, 0, 0, 3, 0, 0x90, 0, 0, 3, 0, 0, 3, 0, 0x5d];
let format = H265Parameters::of_payload(&[&[0, 0, 1], &sps[..]].concat())?;
assert_eq!((format.profile_id(), format.level_id()), (1, 93));
assert_eq!(format.sprop_sps().as_deref(), Ok(&[sps.to_vec()][..]));"#
);

from_stream!(
    H266Parameter,
    h266_of_units,
    h266_of_payload,
    "profile, tier and level with their constraints, `sprop-vps`, `sprop-sps` and `sprop-pps`",
    "RFC 9328, section 7.2",
    r#"use emupedestal::sdp::H266Parameters;

let sps = [0, 0x79, 0x00, 0x0b, 0x02, 0x33, 0x80, 0x80];
let format = H266Parameters::of_payload(&[&[0, 0, 1], &sps[..]].concat())?;
assert_eq!((format.profile_id(), format.tier_flag(), format.level_id()), (1, false, 51));
assert_eq!(format.sprop_sps().as_deref(), Ok(&[sps.to_vec()][..]));"#
);
