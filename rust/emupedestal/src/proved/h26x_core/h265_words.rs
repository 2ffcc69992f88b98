// Made from crates/h26x_core/src/h265_words.rt by tools/to-rust.

//! The header words of H.265 and of its packets (RFC 7798).

use crate::proved::h26x_core::h265_types::{
    AGGREGATION_PACKET, BLA_W_LP, CRA_NUT, FRAGMENTATION_UNIT, IDR_N_LP, IDR_W_RADL, PACI_PACKET,
    VPS_NUT,
};

/// The header of a NAL unit or of a packet: F, type, layer and temporal id (RFC 7798, 1.1.4).
#[cfg_attr(feature = "serde", derive(serde::Serialize, serde::Deserialize))]
#[derive(Debug, Clone, Copy, Default, PartialEq, Eq, Hash)]
pub struct H265NALUHeader(pub u16);

impl H265NALUHeader {
    /// The header of these two bytes, in the order in which they are sent (RFC 7798, 1.1.4).
    pub fn new(high_byte: u8, low_byte: u8) -> Self {
        H265NALUHeader(u16::from(high_byte) << 8 | u16::from(low_byte))
    }

    /// The header with the low six bits of the type and of the layer and three of the temporal id;
    /// F is clear (RFC 7798, 1.1.4).
    pub fn new_with_type(nalu_type: u8, layer_id: u8, tid: u8) -> Self {
        let typ = u16::from(nalu_type & 0x3f) << 9;
        let layer = u16::from(layer_id & 0x3f) << 3;
        H265NALUHeader(typ + layer + u16::from(tid & 0x07))
    }

    /// F, the forbidden bit; where it is set, the syntax is violated (RFC 7798, 1.1.4).
    pub fn f(&self) -> bool {
        self.0 >> 15 != 0
    }

    /// The type, 0 to 63 (RFC 7798, 1.1.4).
    pub fn nalu_type(&self) -> u8 {
        (self.0 >> 9 & 0x3f) as u8
    }

    /// The layer, 0 to 63 (RFC 7798, 1.1.4).
    pub fn layer_id(&self) -> u8 {
        (self.0 >> 3 & 0x3f) as u8
    }

    /// The temporal id plus 1, 0 to 7; 0 is forbidden (RFC 7798, 1.1.4).
    pub fn tid(&self) -> u8 {
        (self.0 & 0x07) as u8
    }

    /// Whether the type is one of a coded slice, below 32 (RFC 7798, 1.1.4).
    pub fn is_type_vcl_unit(&self) -> bool {
        self.nalu_type() < VPS_NUT
    }

    /// Whether this is the header of an aggregation packet, type 48 (RFC 7798, 4.4.2).
    pub fn is_aggregation_packet(&self) -> bool {
        self.nalu_type() == AGGREGATION_PACKET
    }

    /// Whether this is the header of a fragmentation unit, type 49 (RFC 7798, 4.4.3).
    pub fn is_fragmentation_unit(&self) -> bool {
        self.nalu_type() == FRAGMENTATION_UNIT
    }

    /// Whether this is the header of a PACI packet, type 50 (RFC 7798, 4.4.4).
    pub fn is_paci_packet(&self) -> bool {
        self.nalu_type() == PACI_PACKET
    }

    /// Whether the type is one of a slice of an IDR picture, 19 or 20 (RFC 7798, 1.1.4).
    pub fn is_idr_picture(&self) -> bool {
        matches!(self.nalu_type(), IDR_W_RADL | IDR_N_LP)
    }

    /// Whether the type is one of a slice of an IRAP picture, 16 to 21 (RFC 7798, 1.1.4).
    pub fn is_irap(&self) -> bool {
        matches!(self.nalu_type(), BLA_W_LP..=CRA_NUT)
    }
}

/// The byte behind the header of a fragmentation unit: S, E and the unit's type (RFC 7798, 4.4.3).
#[cfg_attr(feature = "serde", derive(serde::Serialize, serde::Deserialize))]
#[derive(Debug, Clone, Copy, Default, PartialEq, Eq, Hash)]
pub struct H265FragmentationUnitHeader(pub u8);

impl H265FragmentationUnitHeader {
    /// The byte with these marks and the low six bits of the type (RFC 7798, 4.4.3).
    pub fn new(s: bool, e: bool, fu_type: u8) -> Self {
        let start = if s { 0x80 } else { 0 };
        let end = if e { 0x40 } else { 0 };
        H265FragmentationUnitHeader(start + end + (fu_type & 0x3f))
    }

    /// Whether this is the first fragment of its unit (RFC 7798, 4.4.3).
    pub fn s(&self) -> bool {
        self.0 >> 7 != 0
    }

    /// Whether this is the last fragment of its unit (RFC 7798, 4.4.3).
    pub fn e(&self) -> bool {
        self.0 >> 6 & 1 != 0
    }

    /// The type of the unit, 0 to 63 (RFC 7798, 4.4.3).
    pub fn fu_type(&self) -> u8 {
        self.0 & 0x3f
    }
}

/// Temporal scalability control information, three bytes that a PACI packet may bear: bits 31 to 8
/// of the word (RFC 7798, 4.5).
#[cfg_attr(feature = "serde", derive(serde::Serialize, serde::Deserialize))]
#[derive(Debug, Clone, Copy, Default, PartialEq, Eq, Hash)]
pub struct H265TSCI(pub u32);

impl H265TSCI {
    /// TL0PICIDX, which counts the pictures of temporal layer 0, modulo 256 (RFC 7798, 4.5).
    pub fn tl0picidx(&self) -> u8 {
        (self.0 >> 24) as u8
    }

    /// IrapPicID, which counts IRAP pictures, modulo 256 (RFC 7798, 4.5).
    pub fn irap_pic_id(&self) -> u8 {
        (self.0 >> 16 & 0xff) as u8
    }

    /// S, which marks the first slice of a picture (RFC 7798, 4.5).
    pub fn s(&self) -> bool {
        self.0 >> 15 & 1 != 0
    }

    /// E, which marks the last slice of a picture (RFC 7798, 4.5).
    pub fn e(&self) -> bool {
        self.0 >> 14 & 1 != 0
    }

    /// RES, six reserved bits (RFC 7798, 4.5).
    pub fn res(&self) -> u8 {
        (self.0 >> 8 & 0x3f) as u8
    }
}
