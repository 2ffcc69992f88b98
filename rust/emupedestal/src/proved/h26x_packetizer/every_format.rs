// Made from crates/h26x_packetizer/src/every_format.rt by tools/to-rust.

//! What sets one codec's packets of every unit apart.

use crate::proved::h26x_payload::PayloadFormat;

/// What sets one codec's packets of every unit apart (RFC 6184, 5.7.1; RFC 7798, 4.4.2; RFC 9328,
/// 4.3.2).
pub(crate) trait EveryFormat: PayloadFormat {
    /// How many bytes of an aggregate are counted before its units.
    fn units_start(self) -> usize;

    /// How many bytes of an aggregate are counted before each of its units: its length, and a DOND.
    fn unit_start(self) -> usize;

    /// Whether a unit is a slice.
    fn is_slice(self, unit: &[u8]) -> bool;

    /// The header of an aggregate of units: the first bytes, as many as a unit's header has.
    fn own_header(self, units: &[&[u8]]) -> [u8; 2];

    /// Whether a unit has a header of its own, not that of a packet.
    fn has_own_header(self, unit: &[u8]) -> bool;
}
