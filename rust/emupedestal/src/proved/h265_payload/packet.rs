// Made from crates/h265_payload/src/packet.rt by tools/to-rust.

//! What an H.265 packet is (RFC 7798, 4.4).

use crate::proved::h26x_core::{H265FragmentationUnitHeader, H265NALUHeader, PacketError};
use crate::proved::h26x_depacketizer::{
    Fragment, PacketReader, Parts, ends_access_unit, may_begin_access_unit,
};
use crate::proved::h265_packets::header::{high_byte, paci_f, paci_size, paci_type};
use crate::proved::h265_payload::aggregate::check_aggregate;
use crate::proved::h265_payload::codec::{H265, header_of};

/// Whether a packet is a fragmentation unit.
fn is_fragment(packet: &[u8]) -> bool {
    packet.len() >= 2 && header_of(packet).is_fragmentation_unit()
}

impl PacketReader for H265 {
    // Two bytes or fewer are too short, and F is clear in every other; types 48, 49 and 50 are an
    // aggregate, a fragment and a PACI packet, and all others are units.
    #[inline(always)]
    fn read(self, packet: &[u8]) -> Result<Parts<'_>, PacketError> {
        if packet.len() < 3 {
            return Err(PacketError::ErrShortPacket);
        }
        let header = H265NALUHeader::new(packet[0], packet[1]);
        if header.f() {
            return Err(PacketError::ErrH265CorruptedPacket);
        }
        if header.is_aggregation_packet() {
            read_aggregate(self.has_donl, packet)
        } else if header.is_fragmentation_unit() {
            read_fragment(self.has_donl, packet)
        } else if header.is_paci_packet() {
            read_paci(self.has_donl, packet)
        } else {
            read_single(self.has_donl, packet)
        }
    }

    fn may_begin(self, packet: &[u8]) -> bool {
        may_begin_access_unit(is_fragment(packet), packet)
    }

    fn is_last(self, marker: bool, packet: &[u8]) -> bool {
        ends_access_unit(is_fragment(packet), marker, packet)
    }
}

/// Reads a single NAL unit packet (RFC 7798, 4.4.1). DONL is there where packets bear numbers, and no
/// part of the unit.
///
/// ```text
///  0 1 2 3 4 5 6 7 0 1 2 3 4 5 6 7
/// +-+-+-+-+-+-+-+-+-+-+-+-+-+-+-+-+-+-+-+-+-+-+-+-+-+-+-+-+-+-+-+-+- - - - - - - -
/// |F|   type    |   layer   | TID |             DONL              | the unit's rest
/// +-+-+-+-+-+-+-+-+-+-+-+-+-+-+-+-+-+-+-+-+-+-+-+-+-+-+-+-+-+-+-+-+- - - - - - - -
/// ```
#[inline(always)]
fn read_single(has_donl: bool, packet: &[u8]) -> Result<Parts<'_>, PacketError> {
    if !has_donl {
        return Ok(Parts::Whole);
    }
    if packet.len() < 5 {
        return Err(PacketError::ErrShortPacket);
    }
    Ok(Parts::Unit {
        head: [packet[0], packet[1]],
        body: &packet[4..],
    })
}

/// Reads an aggregation packet (RFC 7798, 4.4.2). DONL and each DOND are there where packets bear
/// numbers.
///
/// ```text
///  0 1 2 3 4 5 6 7 0 1 2 3 4 5 6 7
/// +-+-+-+-+-+-+-+-+-+-+-+-+-+-+-+-+-+-+-+-+-+-+-+-+-+-+-+-+-+-+-+-+
/// |F|  type 48  |   layer   | TID |             DONL              |
/// +-+-+-+-+-+-+-+-+-+-+-+-+-+-+-+-+-+-+-+-+-+-+-+-+-+-+-+-+-+-+-+-+- - - - - - - -
/// |            length             | the first unit, of that length
/// +-+-+-+-+-+-+-+-+-+-+-+-+-+-+-+-+-+-+-+-+-+-+-+-+- - - - - - - - - - - - - - - -
/// |     DOND      |            length             | the next unit, and so on
/// +-+-+-+-+-+-+-+-+-+-+-+-+-+-+-+-+-+-+-+-+-+-+-+-+- - - - - - - - - - - - - - - -
/// ```
fn read_aggregate(has_donl: bool, packet: &[u8]) -> Result<Parts<'_>, PacketError> {
    if has_donl {
        read_numbered_aggregate(packet)
    } else {
        read_plain_aggregate(packet)
    }
}

/// Reads an aggregate without numbers.
fn read_plain_aggregate(packet: &[u8]) -> Result<Parts<'_>, PacketError> {
    let bytes = &packet[2..];
    let size = check_aggregate(false, bytes)?;
    Ok(Parts::Aggregate { bytes, size })
}

/// Reads an aggregate with numbers: DONL, its units, and from the second on DOND before each.
fn read_numbered_aggregate(packet: &[u8]) -> Result<Parts<'_>, PacketError> {
    if packet.len() < 4 {
        return Err(PacketError::ErrShortPacket);
    }
    let bytes = &packet[3..];
    let size = check_aggregate(true, bytes)?;
    Ok(Parts::Aggregate { bytes, size })
}

/// Reads a fragmentation unit (RFC 7798, 4.4.3). A start has DONL where packets bear numbers. Its
/// unit's header is the packet's with the type of the third byte.
///
/// ```text
///  0 1 2 3 4 5 6 7 0 1 2 3 4 5 6 7 0 1 2 3 4 5 6 7
/// +-+-+-+-+-+-+-+-+-+-+-+-+-+-+-+-+-+-+-+-+-+-+-+-+-+-+-+-+-+-+-+-+-+-+-+-+-+-+-+-+- - - - - -
/// |F|  type 49  |   layer   | TID |S|E|   type    |             DONL              | a part ..
/// +-+-+-+-+-+-+-+-+-+-+-+-+-+-+-+-+-+-+-+-+-+-+-+-+-+-+-+-+-+-+-+-+-+-+-+-+-+-+-+-+- - - - - -
/// ```
fn read_fragment(has_donl: bool, packet: &[u8]) -> Result<Parts<'_>, PacketError> {
    let marks = H265FragmentationUnitHeader(packet[2]);
    let place = if has_donl && marks.s() { 5 } else { 3 };
    if packet.len() <= place {
        return Err(PacketError::ErrShortPacket);
    }
    Ok(Parts::Fragment(Fragment {
        start: marks.s(),
        end: marks.e(),
        head: [high_byte(0, marks.fu_type(), packet[0]), packet[1]],
        body: &packet[place..],
    }))
}

/// Reads a PACI packet, which bears no number (RFC 7798, 4.4.4): an extension of PHSsize bytes, and a
/// unit whose header is F as A, type as cType, and the packet's layer and temporal id.
///
/// ```text
///  0 1 2 3 4 5 6 7 0 1 2 3 4 5 6 7 0 1 2 3 4 5 6 7 0 1 2 3 4 5 6 7
/// +-+-+-+-+-+-+-+-+-+-+-+-+-+-+-+-+-+-+-+-+-+-+-+-+-+-+-+-+-+-+-+-+- - - - - -+- - - - - - - -
/// |F|  type 50  |   layer   | TID |A|   cType   | PHSsize |0|1|2|Y| extension | the unit's rest
/// +-+-+-+-+-+-+-+-+-+-+-+-+-+-+-+-+-+-+-+-+-+-+-+-+-+-+-+-+-+-+-+-+- - - - - -+- - - - - - - -
/// ```
fn read_paci(_has_donl: bool, packet: &[u8]) -> Result<Parts<'_>, PacketError> {
    if packet.len() < 4 {
        return Err(PacketError::ErrShortPacket);
    }
    let fields = u16::from_be_bytes([packet[2], packet[3]]);
    let size = usize::from(paci_size(fields));
    let bytes = &packet[4..];
    if bytes.len() <= size {
        return Err(PacketError::ErrShortPacket);
    }
    let first = high_byte(paci_f(fields), paci_type(fields), packet[0]);
    Ok(Parts::Unit {
        head: [first, packet[1]],
        body: &bytes[size..],
    })
}
