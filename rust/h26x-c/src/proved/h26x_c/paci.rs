// Made from crates/h26x_c/src/paci.rt by tools/to-rust.

//! The call that packs a PACI packet.

use crate::proved::h26x_codes::code::{EXTENSION_TOO_LONG, OK, OUT_OF_MEMORY, SHORT_PACKET};
use crate::proved::h26x_codes::copy::copy_where_room;
use crate::proved::h26x_core::PacketError;
use crate::proved::h265_packets::H265PACIPacket;
use alloc::vec::Vec;
use core::mem::MaybeUninit;

/// Packs a unit with an extension of its header, and copies the packet where there is room for it.
pub fn h26x_h265_paci_packet(
    unit: &[u8],
    extension: &[u8],
    to: &mut [u8],
    len: &mut MaybeUninit<usize>,
) -> u32 {
    match H265PACIPacket::packetize(unit, extension, &mut Vec::new()) {
        Ok(packet) => {
            len.write(copy_where_room(&packet, to));
            OK
        }
        Err(PacketError::ErrShortPacket) => SHORT_PACKET,
        Err(PacketError::ErrH265PACIPHESTooLong) => EXTENSION_TOO_LONG,
        Err(_) => OUT_OF_MEMORY,
    }
}
