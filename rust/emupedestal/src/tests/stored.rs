//! The forms of stored values, as serde_json writes and reads them.

use crate::*;
use serde::Serialize;
use serde::de::DeserializeOwned;
use std::fmt::Debug;

/// A value is written as this text, and read from it.
#[track_caller]
fn stored<T: Serialize + DeserializeOwned + Debug + PartialEq>(value: T, text: &str) {
    assert_eq!(serde_json::to_string(&value).unwrap(), text);
    assert_eq!(serde_json::from_str::<T>(text).unwrap(), value);
}

#[test]
fn words_are_numbers() {
    stored(H265NALUHeader::new(0x26, 0x01), "9729");
    stored(H265FragmentationUnitHeader::new(true, false, 19), "147");
    stored(H265TSCI(0x0102_0380), "16909184");
    stored(H266NALUHeader::new(0x00, 0x39), "57");
    stored(H266FragmentationUnitHeader(0x87), "135");
}

#[test]
fn codecs_and_what_is_told_are_names() {
    stored(Codec::H264, r#""H264""#);
    stored(CodecExtra::None, r#""None""#);
    let told = H265CodecExtra { is_keyframe: true };
    stored(CodecExtra::H265(told), r#"{"H265":{"is_keyframe":true}}"#);
    assert!(serde_json::from_str::<Codec>(r#""H263""#).is_err());
}

#[cfg(feature = "sdp")]
#[test]
fn formats_are_their_texts() {
    use crate::sdp::{H264Parameters, RtpMap};

    let format: H264Parameters = "packetization-mode=1; x=\"; profile-level-id=42e01f"
        .parse()
        .unwrap();
    stored(
        format,
        r#""profile-level-id=42e01f;packetization-mode=1;x=\"""#,
    );
    stored(RtpMap::new(96, Codec::H265).unwrap(), r#""96 H265/90000""#);
    let refused = serde_json::from_str::<H264Parameters>(r#""max-fs=1;max-fs=1""#).unwrap_err();
    let said = "parameter 1 is refused: it is given twice at line 1 column 19";
    assert_eq!(refused.to_string(), said);
    assert!(serde_json::from_str::<RtpMap>("96").is_err());
}

/// Those of which `proved/rows` doesn't ask.
#[test]
fn profiles_are_names() {
    stored(H264ProfileIdc::X64, r#""X64""#);
    let high = H264ProfileLevel::try_from(0x64001f).unwrap();
    stored(high, r#"{"profile":"High","level":"Level3_1"}"#);
    assert!(serde_json::from_str::<H265Level>(r#""Level7""#).is_err());
}
