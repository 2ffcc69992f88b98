// Made from crates/h264_payload/src/packet.rt by tools/to-rust.

//! What an H.264 packet is (RFC 6184, 5.2): a single unit, a STAP-A or an FU-A.

use crate::proved::h26x_core::{
    FU_START_BITMASK, FUA_HEADER_SIZE, FUA_NALU_TYPE, FUB_NALU_TYPE, NALU_TYPE_BITMASK,
    PacketError, STAPA_HEADER_SIZE, STAPA_NALU_TYPE,
};
use crate::proved::h26x_depacketizer::{Fragment, PacketReader, Parts};
use crate::proved::h264_payload::codec::H264;
use crate::proved::h264_payload::stap::check_stap;

/// The header of a unit with the NRI of an FU-A's indicator and the type of its header; F is clear
/// (RFC 6184, 5.8).
fn unit_header(indicator: u8, header: u8) -> u8 {
    (indicator >> 5 & 3) * 32 + (header & NALU_TYPE_BITMASK)
}

impl PacketReader for H264 {
    // Types 1 to 23 are units, 24 a STAP-A, 28 an FU-A, and no other is handled.
    #[inline(always)]
    fn read(self, packet: &[u8]) -> Result<Parts<'_>, PacketError> {
        if packet.is_empty() {
            return Err(PacketError::ErrShortPacket);
        }
        match packet[0] & NALU_TYPE_BITMASK {
            1..=23 => Ok(Parts::Whole),
            STAPA_NALU_TYPE => read_stap(packet),
            FUA_NALU_TYPE => read_fragment(packet),
            nalu_type => Err(PacketError::NaluTypeIsNotHandled(nalu_type)),
        }
    }

    // FU-Bs count as fragments here too.
    fn may_begin(self, packet: &[u8]) -> bool {
        if packet.len() < 2 {
            return false;
        }
        match packet[0] & NALU_TYPE_BITMASK {
            FUA_NALU_TYPE | FUB_NALU_TYPE => packet[1] & FU_START_BITMASK != 0,
            _ => true,
        }
    }

    fn is_last(self, marker: bool, _packet: &[u8]) -> bool {
        marker
    }
}

/// Reads a STAP-A (RFC 6184, 5.7.1).
///
/// ```text
///  0 1 2 3 4 5 6 7
/// +-+-+-+-+-+-+-+-+-+-+-+-+-+-+-+-+-+-+-+-+-+-+-+-+- - - - - - - -+- - - - - - - - - - - -
/// |F|NRI| type 24 |            length             |     unit      | length, unit, ..
/// +-+-+-+-+-+-+-+-+-+-+-+-+-+-+-+-+-+-+-+-+-+-+-+-+- - - - - - - -+- - - - - - - - - - - -
/// ```
#[inline(always)]
fn read_stap(packet: &[u8]) -> Result<Parts<'_>, PacketError> {
    let bytes = &packet[STAPA_HEADER_SIZE..];
    let size = check_stap(bytes)?;
    Ok(Parts::Aggregate { bytes, size })
}

/// Reads an FU-A (RFC 6184, 5.8). Its unit's header is F clear, NRI, and the type of the second byte.
///
/// ```text
///  0 1 2 3 4 5 6 7 0 1 2 3 4 5 6 7
/// +-+-+-+-+-+-+-+-+-+-+-+-+-+-+-+-+- - - - - - - - - - - - - - - -
/// |F|NRI| type 28 |S|E|R|  type   | a part of the unit
/// +-+-+-+-+-+-+-+-+-+-+-+-+-+-+-+-+- - - - - - - - - - - - - - - -
/// ```
fn read_fragment(packet: &[u8]) -> Result<Parts<'_>, PacketError> {
    if packet.len() < FUA_HEADER_SIZE {
        return Err(PacketError::ErrShortPacket);
    }
    Ok(Parts::Fragment(Fragment {
        start: packet[1] & FU_START_BITMASK != 0,
        end: packet[1] >> 6 & 1 != 0,
        head: [unit_header(packet[0], packet[1]), 0],
        body: &packet[FUA_HEADER_SIZE..],
    }))
}
