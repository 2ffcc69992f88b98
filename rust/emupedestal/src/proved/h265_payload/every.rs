// Made from crates/h265_payload/src/every.rt by tools/to-rust.

//! H.265 where every unit goes: an aggregate has the header of its units (RFC 7798, 4.4.2).

use crate::proved::h26x_core::h265_types::{AGGREGATION_PACKET, PACI_PACKET, VPS_NUT};
use crate::proved::h26x_packetizer::EveryFormat;
use crate::proved::h265_payload::codec::{H265Sending, header_of};
use crate::proved::h265_payload::lowest_header::Lowest;

/// What all of the units have.
fn lowest_of(units: &[&[u8]]) -> Lowest {
    let mut lowest = Lowest::of_none();
    for unit in units {
        lowest = lowest.with(unit);
    }
    lowest
}

/// The header of an aggregate of units, by them.
pub(crate) fn lowest_header_of(units: &[&[u8]]) -> [u8; 2] {
    let (high, low) = lowest_of(units).header();
    [high, low]
}

impl EveryFormat for H265Sending {
    fn units_start(self) -> usize {
        if self.codec.has_donl { 3 } else { 2 }
    }

    fn unit_start(self) -> usize {
        if self.codec.has_donl { 3 } else { 2 }
    }

    fn is_slice(self, unit: &[u8]) -> bool {
        match unit.first() {
            Some(high) => *high >> 1 & 0x3f < VPS_NUT,
            None => false,
        }
    }

    fn own_header(self, units: &[&[u8]]) -> [u8; 2] {
        lowest_header_of(units)
    }

    fn has_own_header(self, unit: &[u8]) -> bool {
        if unit.len() < 2 || unit[0] >= 0x80 {
            return false;
        }
        let nalu_type = header_of(unit).nalu_type();
        nalu_type < AGGREGATION_PACKET || nalu_type > PACI_PACKET
    }
}
