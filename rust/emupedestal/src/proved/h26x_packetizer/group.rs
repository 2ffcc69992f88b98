// Made from crates/h26x_packetizer/src/group.rt by tools/to-rust.

//! How many units go in one packet.

use crate::proved::h26x_packetizer::every_format::EveryFormat;
use crate::proved::h26x_packetizer::packing::Packing;
use crate::proved::h26x_packetizer::refusal::unit_refusal;

/// Whether a unit may share a packet.
fn may_share<C: EveryFormat>(codec: C, packing: Packing, unit: &[u8]) -> bool {
    match packing {
        Packing::Together => true,
        Packing::BeforeSlices => !codec.is_slice(unit),
        Packing::Apart | Packing::Single => false,
    }
}

/// Whether a unit with so many bytes before it fits the room that is left.
#[inline]
fn fits_room(each: usize, room: usize, unit: &[u8]) -> bool {
    each + unit.len() <= room && unit.len() < 65536
}

/// How many units, from the first on, go in the room that is left.
fn fitting<C: EveryFormat>(codec: C, packing: Packing, room: usize, units: &[&[u8]]) -> usize {
    let each = codec.unit_start();
    let mut left = room;
    let mut count = 0;
    for unit in units {
        let goes = may_share(codec, packing, unit) && fits_room(each, left, unit);
        if !goes {
            return count;
        }
        left -= each + unit.len();
        count += 1;
    }
    count
}

/// How many of the units, from the first on, go in one packet within the limit: 1 where the first
/// goes alone, whole or in fragments.
pub(crate) fn first_group<C: EveryFormat>(
    codec: C,
    packing: Packing,
    limit: usize,
    units: &[&[u8]],
) -> usize {
    let room = limit.saturating_sub(codec.units_start());
    let count = fitting(codec, packing, room, units);
    if count == 0 { 1 } else { count }
}

/// Whether several units go in one packet, and all of them can go: both are told by one look at each.
#[inline(always)]
pub(crate) fn go_in_one<C: EveryFormat>(
    codec: C,
    packing: Packing,
    limit: usize,
    units: &[&[u8]],
) -> bool {
    if units.len() < 2 {
        return false;
    }
    let each = codec.unit_start();
    let mut left = limit.saturating_sub(codec.units_start());
    for unit in units {
        let goes = may_share(codec, packing, unit) && fits_room(each, left, unit);
        if !goes || unit_refusal(codec, packing, limit, unit).is_some() {
            return false;
        }
        left -= each + unit.len();
    }
    true
}
