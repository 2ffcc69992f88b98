// Made from crates/h26x_codec/src/plain.rt by tools/to-rust.

//! Plain units: NAL units of the video itself, in whose Annex B text no reader finds other units.

use crate::proved::h26x_codec::codec::Codec;
use crate::proved::h26x_core::{
    H265NALUHeader, H266NALUHeader, NALU_TYPE_BITMASK, h265_types, h266_types,
};
use memchr::memmem;

/// Whether two zeros and this byte stand somewhere in bytes.
fn holds_behind_zeros(bytes: &[u8], byte: u8) -> bool {
    memmem::find(bytes, &[0, 0, byte]).is_some()
}

/// Whether bytes are told apart from what is written before and behind them.
fn is_plain_text(bytes: &[u8]) -> bool {
    bytes.last() != Some(&0) && !holds_behind_zeros(bytes, 0) && !holds_behind_zeros(bytes, 1)
}

/// Whether a header is of a unit of H.264 itself (RFC 6184, 5.2, table 1).
fn is_h264_header(header: u8) -> bool {
    header >> 7 == 0 && matches!(header & NALU_TYPE_BITMASK, 1..=23)
}

/// Whether a header is of a unit of H.265 itself (RFC 7798, 1.1.4 and 4.4).
fn is_h265_header(high: u8, low: u8) -> bool {
    let header = H265NALUHeader::new(high, low);
    !header.f() && header.nalu_type() < h265_types::AGGREGATION_PACKET
}

/// Whether a header is of a unit of H.266 itself (RFC 9328, 1.1.4 and 4.3).
fn is_h266_header(high: u8, low: u8) -> bool {
    let header = H266NALUHeader::new(high, low);
    !header.f() && !header.z() && header.nalu_type() < h266_types::AGGREGATION_PACKET
}

impl Codec {
    /// Whether a unit is plain: one of the video itself, in whose Annex B text no reader finds another.
    ///
    /// It has its whole header, F is 0 (of H.266 Z too), and its type is none that a payload format
    /// uses or that the video leaves to others: H.264 1 to 23, H.265 0 to 47, H.266 0 to 27. Neither
    /// `00 00 00` nor `00 00 01` stands in it, and it doesn't end in a zero. Packets are read without
    /// such questions, so units of a stranger may be others. It takes no memory, and time in
    /// proportion to the unit (H.264, 7.4.1 and Annex B; H.265 and H.266, 7.4.2 and Annex B;
    /// RFC 6184, 5.2; RFC 7798, 4.4; RFC 9328, 4.3).
    pub fn is_plain_unit(self, unit: &[u8]) -> bool {
        self.has_plain_header(unit) && is_plain_text(unit)
    }

    /// Whether a unit has a whole header, and that is of a unit of the video itself.
    fn has_plain_header(self, unit: &[u8]) -> bool {
        match self {
            Codec::H264 => !unit.is_empty() && is_h264_header(unit[0]),
            Codec::H265 => unit.len() >= 2 && is_h265_header(unit[0], unit[1]),
            Codec::H266 => unit.len() >= 2 && is_h266_header(unit[0], unit[1]),
        }
    }
}
