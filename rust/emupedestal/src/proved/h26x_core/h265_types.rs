// Made from crates/h26x_core/src/h265_types.rt by tools/to-rust.

//! Types of NAL units of H.265 (Rec. ITU-T H.265, table 7-1) and of its packets (RFC 7798, 4.4).

/// A slice of a BLA picture, the first of the IRAP types.
pub const BLA_W_LP: u8 = 16;

/// A slice of an IDR picture that may have decodable leading pictures.
pub const IDR_W_RADL: u8 = 19;

/// A slice of an IDR picture without leading pictures.
pub const IDR_N_LP: u8 = 20;

/// A slice of a CRA picture, the last of the IRAP types that are in use.
pub const CRA_NUT: u8 = 21;

/// A video parameter set, the first type that is no coded slice's.
pub const VPS_NUT: u8 = 32;

/// A sequence parameter set.
pub const SPS_NUT: u8 = 33;

/// A picture parameter set.
pub const PPS_NUT: u8 = 34;

/// An access unit delimiter.
pub const AUD_NUT: u8 = 35;

/// An aggregation packet (RFC 7798, 4.4.2).
pub const AGGREGATION_PACKET: u8 = 48;

/// A fragmentation unit (RFC 7798, 4.4.3).
pub const FRAGMENTATION_UNIT: u8 = 49;

/// A PACI packet (RFC 7798, 4.4.4).
pub const PACI_PACKET: u8 = 50;
