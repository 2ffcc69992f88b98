// Made from crates/h26x_depacketizer/src/parts.rt by tools/to-rust.

//! What a packet is to a depacketizer, with slices of it (RFC 6184, 5; RFC 7798, 4.4; RFC 9328,
//! 4.3).

use crate::proved::h26x_depacketizer::reassembly::Fragment;

/// What a packet is to a depacketizer. Decoding order numbers are left out: none of them counts for
/// what is written.
#[derive(Clone, Copy)]
pub enum Parts<'a> {
    /// A unit, which is the packet itself (RFC 6184, 5.6; RFC 7798, 4.4.1; RFC 9328, 4.3.1).
    Whole,

    /// A unit, by its header and what stands behind it: of a packet with a number between them, or
    /// of a PACI packet (RFC 7798, 4.4.4).
    Unit {
        /// Its header: as many of these bytes as the codec's headers have.
        head: [u8; 2],
        /// What stands behind it.
        body: &'a [u8],
    },

    /// The units of an aggregate (RFC 6184, 5.7.1; RFC 7798, 4.4.2; RFC 9328, 4.3.2).
    Aggregate {
        /// Where they stand.
        bytes: &'a [u8],
        /// How many bytes they take where they are written, at most `usize::MAX`.
        size: usize,
    },

    /// A part of a unit (RFC 6184, 5.8; RFC 7798, 4.4.3; RFC 9328, 4.3.3).
    Fragment(Fragment<'a>),
}
