// Made from crates/h264_payload/src/codec.rt by tools/to-rust.

//! The codec, which the packetizer and the depacketizer are made with.

/// H.264 (RFC 6184), which has no settings.
#[derive(Debug, Clone, Copy, PartialEq, Eq)]
pub struct H264;
