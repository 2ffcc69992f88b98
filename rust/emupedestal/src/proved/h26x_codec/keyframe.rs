// Made from crates/h26x_codec/src/keyframe.rt by tools/to-rust.

//! Whether a packet begins a unit of a keyframe.

use crate::proved::h26x_codec::codec::Codec;
use crate::proved::h26x_core::{H265NALUHeader, H266NALUHeader, NALU_TYPE_BITMASK};
use crate::proved::h26x_depacketizer::{PacketReader, UnitTest, bears_unit, first_unit_begun};
use crate::proved::h26x_payload::{DonlFormat, PayloadFormat};
use crate::proved::h264_payload::H264;
use crate::proved::h265_payload::H265;
use crate::proved::h266_payload::H266;

/// Whether a unit of a codec is a key unit.
#[derive(Clone, Copy)]
struct IsKey {
    codec: Codec,
}

impl UnitTest for IsKey {
    fn holds(&self, first: [u8; 3]) -> bool {
        match self.codec {
            Codec::H264 => first[0] & NALU_TYPE_BITMASK == 5,
            Codec::H265 => H265NALUHeader::new(first[0], first[1]).is_irap(),
            Codec::H266 => H266NALUHeader::new(first[0], first[1]).is_irap(),
        }
    }
}

/// Whether it is so of a unit that a packet begins: where it begins one, all that it bears are begun.
fn begins_unit<C: PacketReader, T: UnitTest>(codec: C, packet: &[u8], test: &T) -> bool {
    first_unit_begun(codec, packet).is_some() && bears_unit(codec, packet, test)
}

impl Codec {
    /// Whether a packet begins a unit of a keyframe: it holds one, alone or in an aggregate, or is its
    /// first fragment (RFC 6184, 5; RFC 7798, 4.4; RFC 9328, 4.3). `has_donl`: whether packets bear
    /// decoding order numbers; those of H.264 don't. A packet that is refused begins none.
    ///
    /// Key units are those of IDR pictures of H.264, IRAP of H.265, IDR and CRA of H.266.
    pub fn begins_keyframe(self, has_donl: bool, packet: &[u8]) -> bool {
        let test = IsKey { codec: self };
        match self {
            Codec::H264 => begins_unit(H264::new(), packet, &test),
            Codec::H265 => begins_unit(H265::new().with_donl(has_donl), packet, &test),
            Codec::H266 => begins_unit(H266::new().with_donl(has_donl), packet, &test),
        }
    }
}
