// Made from crates/h266_payload/src/packet.rt by tools/to-rust.

//! What an H.266 packet is (RFC 9328, 4.3).

use crate::proved::h26x_core::h266_types::{AGGREGATION_PACKET, FRAGMENTATION_UNIT};
use crate::proved::h26x_core::{H266FragmentationUnitHeader, PacketError};
use crate::proved::h26x_depacketizer::{
    Fragment, PacketReader, Parts, ends_access_unit, may_begin_access_unit,
};
use crate::proved::h266_payload::aggregate::check_aggregate;
use crate::proved::h266_payload::codec::{H266, header_of, with_type};

/// The bytes of a packet's header.
pub const PACKET_HEADER_SIZE: usize = 2;

/// The bytes of a packet's header with DONL behind it.
const NUMBERED_HEADER_SIZE: usize = 4;

/// The bytes before a fragment's DONL and data: the packet's header, and a byte of S, E, P and the
/// unit's type.
const FRAGMENT_HEADER_SIZE: usize = 3;

/// What stands behind DONL, if it is there; where none is borne, all bytes.
fn rest_behind_donl(has_donl: bool, bytes: &[u8]) -> Result<&[u8], PacketError> {
    if !has_donl {
        return Ok(bytes);
    }
    if bytes.len() < 2 {
        return Err(PacketError::ErrShortPacket);
    }
    Ok(&bytes[2..])
}

/// Whether a packet is a fragmentation unit.
fn is_fragment(packet: &[u8]) -> bool {
    packet.len() >= PACKET_HEADER_SIZE && header_of(packet).is_fragmentation_unit()
}

impl PacketReader for H266 {
    // A type that is neither an aggregate's nor a fragment's is a unit's own, as most are.
    #[inline(always)]
    fn read(self, packet: &[u8]) -> Result<Parts<'_>, PacketError> {
        if packet.len() <= PACKET_HEADER_SIZE {
            return Err(PacketError::ErrShortPacket);
        }
        let header = header_of(packet);
        if header.f() {
            return Err(PacketError::ErrH266CorruptedPacket);
        }
        let nalu_type = header.nalu_type();
        if nalu_type < AGGREGATION_PACKET || nalu_type > FRAGMENTATION_UNIT {
            return read_single(self.has_donl, packet);
        }
        if nalu_type == AGGREGATION_PACKET {
            read_aggregate(self.has_donl, packet)
        } else {
            read_fragment(self.has_donl, packet)
        }
    }

    fn may_begin(self, packet: &[u8]) -> bool {
        may_begin_access_unit(is_fragment(packet), packet)
    }

    fn is_last(self, marker: bool, packet: &[u8]) -> bool {
        ends_access_unit(is_fragment(packet), marker, packet)
    }
}

/// Reads a single NAL unit packet (RFC 9328, 4.3.1). DONL is there where packets bear numbers, and no
/// part of the unit.
///
/// ```text
///  0 1 2 3 4 5 6 7 0 1 2 3 4 5 6 7
/// +-+-+-+-+-+-+-+-+-+-+-+-+-+-+-+-+-+-+-+-+-+-+-+-+-+-+-+-+-+-+-+-+- - - - - - - -
/// |F|Z|   layer   |  type   | TID |             DONL              | the unit's rest
/// +-+-+-+-+-+-+-+-+-+-+-+-+-+-+-+-+-+-+-+-+-+-+-+-+-+-+-+-+-+-+-+-+- - - - - - - -
/// ```
#[inline]
fn read_single(has_donl: bool, packet: &[u8]) -> Result<Parts<'_>, PacketError> {
    if !has_donl {
        return Ok(Parts::Whole);
    }
    if packet.len() < NUMBERED_HEADER_SIZE + 1 {
        return Err(PacketError::ErrShortPacket);
    }
    Ok(Parts::Unit {
        head: [packet[0], packet[1]],
        body: &packet[NUMBERED_HEADER_SIZE..],
    })
}

/// Reads an aggregation packet (RFC 9328, 4.3.2). DONL, the first unit's number, is there where
/// packets bear numbers; each later unit's is one more.
///
/// ```text
///  0 1 2 3 4 5 6 7 0 1 2 3 4 5 6 7
/// +-+-+-+-+-+-+-+-+-+-+-+-+-+-+-+-+-+-+-+-+-+-+-+-+-+-+-+-+-+-+-+-+
/// |F|Z|   layer   | type 28 | TID |             DONL              |
/// +-+-+-+-+-+-+-+-+-+-+-+-+-+-+-+-+-+-+-+-+-+-+-+-+-+-+-+-+-+-+-+-+- - - - - - - -
/// |            length             | a unit of that length, and so on to the end
/// +-+-+-+-+-+-+-+-+-+-+-+-+-+-+-+-+- - - - - - - - - - - - - - - - - - - - - - - -
/// ```
fn read_aggregate(has_donl: bool, packet: &[u8]) -> Result<Parts<'_>, PacketError> {
    let bytes = rest_behind_donl(has_donl, &packet[PACKET_HEADER_SIZE..])?;
    let size = check_aggregate(bytes)?;
    Ok(Parts::Aggregate { bytes, size })
}

/// Reads a fragmentation unit (RFC 9328, 4.3.3). A start has DONL where packets bear numbers. Its
/// unit's header is the packet's with the type of the third byte.
///
/// ```text
///  0 1 2 3 4 5 6 7 0 1 2 3 4 5 6 7 0 1 2 3 4 5 6 7
/// +-+-+-+-+-+-+-+-+-+-+-+-+-+-+-+-+-+-+-+-+-+-+-+-+-+-+-+-+-+-+-+-+-+-+-+-+-+-+-+-+- - - - - -
/// |F|Z|   layer   | type 29 | TID |S|E|P|  type   |             DONL              | a part ..
/// +-+-+-+-+-+-+-+-+-+-+-+-+-+-+-+-+-+-+-+-+-+-+-+-+-+-+-+-+-+-+-+-+-+-+-+-+-+-+-+-+- - - - - -
/// ```
fn read_fragment(has_donl: bool, packet: &[u8]) -> Result<Parts<'_>, PacketError> {
    let fu = H266FragmentationUnitHeader(packet[PACKET_HEADER_SIZE]);
    let rest = &packet[FRAGMENT_HEADER_SIZE..];
    let body = rest_behind_donl(has_donl && fu.s(), rest)?;
    Ok(Parts::Fragment(Fragment {
        start: fu.s(),
        end: fu.e(),
        head: [packet[0], with_type(packet[1], fu.fu_type())],
        body,
    }))
}
