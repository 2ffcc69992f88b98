// Made from crates/h26x_c/src/packets.rt by tools/to-rust.

//! The calls on packets alone.

use crate::proved::h26x_codec::Codec;
use crate::proved::h26x_codes::code::codec_of;
use crate::proved::h26x_core::Depacketizer;
use crate::proved::h264_payload::{H264Depacketizer, detect_h264_keyframe, detect_h264_nalu};
use crate::proved::h265_payload::{H265Depacketizer, detect_h265_keyframe, set_lowest_header};
use crate::proved::h266_payload::{H266Depacketizer, detect_h266_keyframe};

/// Whether a packet may be the first of an access unit.
pub fn h26x_is_partition_head(codec: u32, packet: &[u8]) -> bool {
    match codec_of(codec) {
        Some(Codec::H264) => H264Depacketizer::new().is_partition_head(packet),
        Some(Codec::H265) => H265Depacketizer::new().is_partition_head(packet),
        Some(Codec::H266) => H266Depacketizer::new().is_partition_head(packet),
        None => false,
    }
}

/// Whether a packet is the last of an access unit, its marker bit given.
pub fn h26x_is_partition_tail(codec: u32, marker: bool, packet: &[u8]) -> bool {
    match codec_of(codec) {
        Some(Codec::H264) => H264Depacketizer::new().is_partition_tail(marker, packet),
        Some(Codec::H265) => H265Depacketizer::new().is_partition_tail(marker, packet),
        Some(Codec::H266) => H266Depacketizer::new().is_partition_tail(marker, packet),
        None => false,
    }
}

/// Whether a packet without numbers is known to hold a unit of a keyframe, or to be the first
/// fragment of one.
pub fn h26x_detect_keyframe(codec: u32, packet: &[u8]) -> bool {
    match codec_of(codec) {
        Some(Codec::H264) => detect_h264_keyframe(packet),
        Some(Codec::H265) => detect_h265_keyframe(packet),
        Some(Codec::H266) => detect_h266_keyframe(packet),
        None => false,
    }
}

/// Whether a packet begins a unit of a keyframe. `numbers`: whether packets bear decoding order
/// numbers.
pub fn h26x_begins_keyframe(codec: u32, numbers: bool, packet: &[u8]) -> bool {
    match codec_of(codec) {
        Some(codec) => codec.begins_keyframe(numbers, packet),
        None => false,
    }
}

/// Whether an H.264 packet is known to hold a unit of this type, or to be the first fragment of
/// one.
pub fn h26x_detect_h264_nalu(packet: &[u8], kind: u8) -> bool {
    detect_h264_nalu(packet, kind)
}

/// Gives an aggregation packet of H.265 the header of its units (RFC 7798, 4.4.2); every other packet
/// stays.
pub fn h26x_set_lowest_header(codec: u32, numbers: bool, packet: &mut [u8]) {
    if let Some(Codec::H265) = codec_of(codec) {
        set_lowest_header(numbers, packet);
    }
}

/// How many bytes the units of packets of this many bytes may take.
pub fn h26x_out_size_hint(packets_size: usize) -> usize {
    match H264Depacketizer::new().out_size_hint(packets_size) {
        Some(hint) => hint,
        None => packets_size,
    }
}
