// Made from crates/h26x_packetizer/src/refusal.rt by tools/to-rust.

//! Units that can't go.

use crate::proved::h26x_packetizer::every_format::EveryFormat;
use crate::proved::h26x_packetizer::packing::Packing;
use crate::proved::h26x_packetizer::units::{fits_one, has_room};

/// Why a unit can't go.
#[derive(Debug, Clone, Copy, PartialEq, Eq)]
pub enum WhyRefused {
    /// It has no whole header.
    WithoutHeader,
    /// Its forbidden bit is set (RFC 6184, 1.3; RFC 7798, 1.1.4; RFC 9328, 1.1.4).
    Forbidden,
    /// Its type is one of packets, or, of H.264, one that no unit has: 0, 30 or 31 (RFC 6184, 5.2;
    /// RFC 7798, 4.4; RFC 9328, 4.3).
    OfPacketType,
    /// It is longer than a packet, and no fragment has room for its data, or none may go.
    TooLong,
}

/// A unit that can't go: its place among the units of the call, its length in bytes, and why.
#[derive(Debug, Clone, Copy, PartialEq, Eq)]
pub struct RefusedUnit {
    pub place: usize,
    pub len: usize,
    pub why: WhyRefused,
}

/// Whether the forbidden bit of a unit is set.
fn has_f_bit(unit: &[u8]) -> bool {
    match unit.first() {
        Some(first) => *first >= 0x80,
        None => false,
    }
}

/// Whether a unit is too long for the packets of a call.
fn is_too_long<C: EveryFormat>(codec: C, packing: Packing, limit: usize, unit: &[u8]) -> bool {
    !fits_one(codec, limit, unit) && (packing == Packing::Single || !has_room(codec, limit))
}

/// Why this unit can't go, if it can't.
#[inline]
pub(crate) fn unit_refusal<C: EveryFormat>(
    codec: C,
    packing: Packing,
    limit: usize,
    unit: &[u8],
) -> Option<WhyRefused> {
    if unit.len() < codec.header_len() {
        Some(WhyRefused::WithoutHeader)
    } else if has_f_bit(unit) {
        Some(WhyRefused::Forbidden)
    } else if !codec.has_own_header(unit) {
        Some(WhyRefused::OfPacketType)
    } else if is_too_long(codec, packing, limit, unit) {
        Some(WhyRefused::TooLong)
    } else {
        None
    }
}

/// The first of the units that can't go, if there is one.
pub(crate) fn units_refusal<C: EveryFormat>(
    codec: C,
    packing: Packing,
    limit: usize,
    units: &[&[u8]],
) -> Option<RefusedUnit> {
    let mut place = 0;
    for unit in units {
        if let Some(why) = unit_refusal(codec, packing, limit, unit) {
            return Some(RefusedUnit {
                place,
                len: unit.len(),
                why,
            });
        }
        place += 1;
    }
    None
}
