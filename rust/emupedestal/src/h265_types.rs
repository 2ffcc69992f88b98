//! Types of NAL units of H.265 (Rec. ITU-T H.265, table 7-1) and of its packets (RFC 7798, 4.4), and
//! the sizes of their headers.

pub use crate::proved::h26x_core::h265_types::*;

/// A slice of a BLA picture that may have decodable leading pictures.
pub const BLA_W_RADL: u8 = 17;

/// A slice of a BLA picture without leading pictures.
pub const BLA_N_LP: u8 = 18;

/// Filler data.
pub const FD_NUT: u8 = 38;

/// The bytes of the header of a NAL unit, and of a packet (RFC 7798, 1.1.4).
pub const NALU_HEADER_SIZE: usize = 2;

/// The bytes between the header of a fragmentation unit and DONL or its data (RFC 7798, 4.4.3).
pub const FRAGMENTATION_UNIT_HEADER_SIZE: usize = 1;

/// The most bytes of the extension of a PACI packet's header, PHES (RFC 7798, 4.4.4).
pub const PACI_MAX_PHES_SIZE: usize = 31;
