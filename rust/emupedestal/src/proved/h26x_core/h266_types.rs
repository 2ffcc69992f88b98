// Made from crates/h26x_core/src/h266_types.rt by tools/to-rust.

//! Types of NAL units of H.266 (Rec. ITU-T H.266, table 5) and of its packets (RFC 9328, 4.3).

/// A slice of an IDR picture that may have decodable leading pictures.
pub const IDR_W_RADL: u8 = 7;

/// A slice of a CRA picture.
pub const CRA_NUT: u8 = 9;

/// A video parameter set.
pub const VPS_NUT: u8 = 14;

/// A sequence parameter set.
pub const SPS_NUT: u8 = 15;

/// A picture parameter set.
pub const PPS_NUT: u8 = 16;

/// An access unit delimiter.
pub const AUD_NUT: u8 = 20;

/// An aggregation packet (RFC 9328, 4.3.2).
pub const AGGREGATION_PACKET: u8 = 28;

/// A fragmentation unit (RFC 9328, 4.3.3).
pub const FRAGMENTATION_UNIT: u8 = 29;
