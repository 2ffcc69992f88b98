// Made from crates/h266_payload/src/aggregate.rt by tools/to-rust.

//! The units of an aggregation packet (RFC 9328, 4.3.2).

use crate::proved::h26x_core::{PacketError, first_piece};
use crate::proved::h26x_depacketizer::{Aggregate, PREFIX_SIZE};
use crate::proved::h266_payload::codec::{H266, header_of};

/// The bytes of a unit's length in an aggregate.
const LENGTH_SIZE: usize = 2;

/// The bytes of a unit's header.
const UNIT_HEADER_SIZE: usize = 2;

impl Aggregate for H266 {
    #[inline(always)]
    fn first_unit(self, bytes: &[u8]) -> Option<(&[u8], &[u8])> {
        if bytes.len() < LENGTH_SIZE {
            return None;
        }
        first_piece(bytes).ok()
    }
}

/// Whether a unit is an aggregate or a fragment, which no aggregate may hold.
fn is_packet(unit: &[u8]) -> bool {
    let header = header_of(unit);
    header.is_aggregation_packet() || header.is_fragmentation_unit()
}

/// The first unit of bytes and what stands behind it, or the fault that is there.
fn first_allowed(bytes: &[u8]) -> Result<(&[u8], &[u8]), PacketError> {
    if bytes.len() < LENGTH_SIZE {
        return Err(PacketError::ErrShortPacket);
    }
    match first_piece(bytes) {
        Ok((unit, _)) if unit.len() < UNIT_HEADER_SIZE => Err(PacketError::ErrShortPacket),
        Ok((unit, _)) if is_packet(unit) => Err(PacketError::ErrH266CorruptedPacket),
        Ok(parts) => Ok(parts),
        Err(_) => Err(PacketError::ErrShortPacket),
    }
}

/// How many bytes the units of an aggregate take where they are written, at most `usize::MAX`.
///
/// The fault furthest left refuses it: a lone byte, or a length under 2 or past the end; a unit that
/// is an aggregate or a fragment. So do fewer than two units.
pub fn check_aggregate(bytes: &[u8]) -> Result<usize, PacketError> {
    let mut count: usize = 0;
    let mut rest = bytes;
    while !rest.is_empty() {
        let (_, behind) = first_allowed(rest)?;
        count += 1;
        rest = behind;
    }
    if count < 2 {
        return Err(PacketError::ErrShortPacket);
    }
    // Each length grows to that of a start code.
    Ok(bytes.len() + (PREFIX_SIZE - LENGTH_SIZE) * count)
}
