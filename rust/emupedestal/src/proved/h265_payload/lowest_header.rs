// Made from crates/h265_payload/src/lowest_header.rt by tools/to-rust.

//! The header of an aggregation packet by its units (RFC 7798, 4.4.2).

use crate::proved::h26x_core::h265_types::AGGREGATION_PACKET;
use crate::proved::h26x_depacketizer::Aggregate;
use crate::proved::h265_payload::codec::{H265, header_of};

/// What units have in common with the header of their aggregate: F where one has it, and the lowest
/// layer and temporal id.
#[derive(Clone, Copy)]
pub struct Lowest {
    pub forbidden: bool,
    pub layer: u8,
    pub temporal: u8,
}

/// Whether F is set.
fn is_forbidden(unit: &[u8]) -> bool {
    !unit.is_empty() && unit[0] >> 7 == 1
}

/// The layer of a unit.
fn layer(unit: &[u8]) -> u8 {
    if unit.len() < 2 {
        return 0;
    }
    (unit[0] & 1) * 32 + (unit[1] >> 3)
}

/// The temporal id of a unit.
fn temporal(unit: &[u8]) -> u8 {
    if unit.len() < 2 { 0 } else { unit[1] & 7 }
}

impl Lowest {
    /// What no unit has: nothing is lower with one more.
    pub(crate) fn of_none() -> Lowest {
        Lowest {
            forbidden: false,
            layer: 63,
            temporal: 7,
        }
    }

    /// The header of an aggregate of units that have it.
    pub(crate) fn header(self) -> (u8, u8) {
        let forbidden = if self.forbidden { 0x80 } else { 0 };
        let high = forbidden + AGGREGATION_PACKET * 2 + self.layer / 32;
        (high, self.layer % 32 * 8 + self.temporal)
    }

    /// The same with one unit more.
    pub(crate) fn with(self, unit: &[u8]) -> Lowest {
        Lowest {
            forbidden: self.forbidden || is_forbidden(unit),
            layer: self.layer.min(layer(unit)),
            temporal: self.temporal.min(temporal(unit)),
        }
    }
}

/// What all units of an aggregate's bytes have.
fn lowest_of(codec: H265, bytes: &[u8]) -> Lowest {
    let mut lowest = Lowest::of_none();
    let mut rest = bytes;
    while let Some((unit, behind)) = codec.first_unit(rest) {
        lowest = lowest.with(unit);
        rest = behind;
    }
    lowest
}

/// Whether two units or more stand whole in an aggregate's bytes.
fn has_two_units(codec: H265, bytes: &[u8]) -> bool {
    match codec.first_unit(bytes) {
        Some((_, behind)) => codec.first_unit(behind).is_some(),
        None => false,
    }
}

/// The header by the units, of a packet that is an aggregate of two or more.
fn lowest_header(has_donl: bool, packet: &[u8]) -> Option<(u8, u8)> {
    let start = if has_donl { 3 } else { 2 };
    if packet.len() < start || !header_of(packet).is_aggregation_packet() {
        return None;
    }
    let codec = H265 { has_donl };
    let bytes = &packet[start..];
    if !has_two_units(codec, bytes) {
        return None;
    }
    Some(lowest_of(codec, bytes).header())
}

/// Gives an aggregation packet the header that RFC 7798, 4.4.2 asks for: F where a unit in it has it,
/// the lowest layer and the lowest temporal id of its units. Every other packet, and an aggregate of
/// fewer than two whole units, stays as it is; so do all bytes behind the header.
///
/// A packetizer gives the sets that it sends in one packet the layer and the temporal id of the unit
/// behind them, as str0m does. So where a forwarder drops packets by their temporal id, sets before a
/// slice of a high one are dropped with it, unless each packet is handed to this call before it is
/// sent. `has_donl` is the packetizer's: whether packets bear decoding order numbers (4.6).
pub fn set_lowest_header(has_donl: bool, packet: &mut [u8]) {
    if let Some((high, low)) = lowest_header(has_donl, packet) {
        packet[..2].copy_from_slice(&[high, low]);
    }
}
