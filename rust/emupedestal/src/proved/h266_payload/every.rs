// Made from crates/h266_payload/src/every.rt by tools/to-rust.

//! H.266 where every unit goes: an aggregate has the header of its units (RFC 9328, 4.3.2).

use crate::proved::h26x_core::h266_types::{AGGREGATION_PACKET, FRAGMENTATION_UNIT};
use crate::proved::h26x_packetizer::EveryFormat;
use crate::proved::h266_payload::codec::{H266, header_of};
use crate::proved::h266_payload::packetizer::{is_forbidden, layer, temporal};

/// What units have in common with the header of their aggregate: F where one has it, and the lowest
/// layer and temporal id.
#[derive(Clone, Copy)]
pub struct Lowest {
    forbidden: bool,
    layer: u8,
    temporal: u8,
}

/// What all of the units have.
fn lowest_of(units: &[&[u8]]) -> Lowest {
    let mut forbidden = false;
    let mut lowest = 63;
    let mut lowest_temporal = 7;
    for unit in units {
        forbidden = forbidden || is_forbidden(unit);
        lowest = layer(unit).min(lowest);
        lowest_temporal = temporal(unit).min(lowest_temporal);
    }
    Lowest {
        forbidden,
        layer: lowest,
        temporal: lowest_temporal,
    }
}

impl EveryFormat for H266 {
    fn units_start(self) -> usize {
        if self.has_donl { 4 } else { 2 }
    }

    fn unit_start(self) -> usize {
        2
    }

    fn is_slice(self, unit: &[u8]) -> bool {
        unit.len() >= 2 && header_of(unit).nalu_type() < 12
    }

    fn own_header(self, units: &[&[u8]]) -> [u8; 2] {
        let of_units = lowest_of(units);
        let forbidden_bit = if of_units.forbidden { 0x80 } else { 0 };
        [
            forbidden_bit + of_units.layer,
            AGGREGATION_PACKET * 8 + of_units.temporal.max(1),
        ]
    }

    fn has_own_header(self, unit: &[u8]) -> bool {
        if unit.len() < 2 || unit[0] >= 0x80 {
            return false;
        }
        let nalu_type = header_of(unit).nalu_type();
        nalu_type != AGGREGATION_PACKET && nalu_type != FRAGMENTATION_UNIT
    }
}
