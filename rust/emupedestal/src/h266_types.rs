//! Types of NAL units of H.266 (Rec. ITU-T H.266, table 5) and of its packets (RFC 9328, 4.3), and the
//! sizes of their headers.

pub use crate::proved::h26x_core::h266_types::*;

/// A slice of an IDR picture without leading pictures.
pub const IDR_N_LP: u8 = 8;

/// A slice of a GDR picture, at which a gradual decoding refresh begins: no keyframe.
pub const GDR_NUT: u8 = 10;

/// Filler data.
pub const FD_NUT: u8 = 25;

/// The bytes of the header of a NAL unit, and of a packet (RFC 9328, 1.1.4).
pub const NALU_HEADER_SIZE: usize = 2;

/// The bytes between the header of a fragmentation unit and DONL or its data (RFC 9328, 4.3.3).
pub const FRAGMENTATION_UNIT_HEADER_SIZE: usize = 1;
