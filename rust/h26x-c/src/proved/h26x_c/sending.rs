// Made from crates/h26x_c/src/sending.rt by tools/to-rust.

//! The calls of a packetizer.

use crate::proved::h26x_c::const_handle::ConstHandle;
use crate::proved::h26x_c::handle::Handle;
use crate::proved::h26x_c::place::{Place, put};
use crate::proved::h26x_codes::code::{
    NOT_OF_THIS_CODEC, OK, OUT_OF_MEMORY, OUT_OF_RANGE, WRONG_END, code_of_placement, codec_wanted,
    may_have_donl,
};
use crate::proved::h26x_codes::copy::copy_where_room;
use crate::proved::h26x_endpoint::endpoint::Endpoint;
use crate::proved::h26x_handles::sending::SendingEndpoint;
use core::mem::MaybeUninit;

/// Makes a packetizer for which nothing waits.
pub fn h26x_packetizer_new(codec: u32, numbers: bool, made: &mut MaybeUninit<Place>) -> u32 {
    match codec_wanted(codec, numbers) {
        Ok(codec) => put(
            Endpoint::Sending(SendingEndpoint::new(codec, numbers)),
            made,
        ),
        Err(code) => code,
    }
}

/// Makes a packetizer again, without its packets.
pub fn h26x_packetizer_clone(p: &ConstHandle, made: &mut MaybeUninit<Place>) -> u32 {
    let copy = match p.get() {
        Endpoint::Sending(it) => it.try_clone(),
        _ => return WRONG_END,
    };
    match copy {
        Ok(copy) => put(Endpoint::Sending(copy), made),
        Err(_) => OUT_OF_MEMORY,
    }
}

/// Frees a packetizer.
pub fn h26x_packetizer_free(p: Handle) {
    drop(p.into_box());
}

/// Turns decoding order numbers on, from 0, or off.
pub fn h26x_packetizer_set_numbers(p: &mut Handle, numbers: bool) -> u32 {
    match p.get_mut() {
        Endpoint::Sending(it) => {
            if !may_have_donl(it.packetizer.codec()) {
                return NOT_OF_THIS_CODEC;
            }
            it.with_donl(numbers);
            OK
        }
        _ => WRONG_END,
    }
}

/// Sets the largest packet size.
pub fn h26x_packetizer_set_max_size(p: &mut Handle, bytes: u16) -> u32 {
    match p.get_mut() {
        Endpoint::Sending(it) => {
            if !may_have_donl(it.packetizer.codec()) {
                return NOT_OF_THIS_CODEC;
            }
            if bytes < 4 {
                return OUT_OF_RANGE;
            }
            it.with_max_packet_size(bytes);
            OK
        }
        _ => WRONG_END,
    }
}

/// Sets whether parameter sets that share a packet of H.265 have the header of their own (RFC 7798,
/// 4.4.2). Those of H.266 have it in any case.
pub fn h26x_packetizer_set_lowest_header(p: &mut Handle, lowest: bool) -> u32 {
    match p.get_mut() {
        Endpoint::Sending(it) => {
            if !may_have_donl(it.packetizer.codec()) {
                return NOT_OF_THIS_CODEC;
            }
            it.with_lowest_header(lowest);
            OK
        }
        _ => WRONG_END,
    }
}

/// Makes the packets of a payload, which take the place of the last call's.
pub fn h26x_packetize(
    p: &mut Handle,
    mtu: usize,
    payload: &[u8],
    count: &mut MaybeUninit<usize>,
) -> u32 {
    match p.get_mut() {
        Endpoint::Sending(it) => {
            let made = it.packetize(mtu, payload);
            count.write(it.count());
            match made {
                Ok(()) => OK,
                Err(_) => OUT_OF_MEMORY,
            }
        }
        _ => {
            count.write(0);
            WRONG_END
        }
    }
}

/// Makes the packets of one unit as it is, without a start code and whatever its kind, which take the
/// place of the last call's; the sets that wait stay.
pub fn h26x_packetize_unit(
    p: &mut Handle,
    mtu: usize,
    unit: &[u8],
    count: &mut MaybeUninit<usize>,
) -> u32 {
    match p.get_mut() {
        Endpoint::Sending(it) => {
            let made = it.packetize_unit(mtu, unit);
            count.write(it.count());
            match made {
                Ok(()) => OK,
                Err(_) => OUT_OF_MEMORY,
            }
        }
        _ => {
            count.write(0);
            WRONG_END
        }
    }
}

/// How many packets there are of a payload, and how many bytes they take in memory, each behind
/// `headroom`. Nothing changes.
pub fn h26x_packets_size(
    p: &ConstHandle,
    mtu: usize,
    payload: &[u8],
    headroom: usize,
    count: &mut MaybeUninit<usize>,
    size: &mut MaybeUninit<usize>,
) -> u32 {
    count.write(0);
    size.write(0);
    let made = match p.get() {
        Endpoint::Sending(it) => it.packetizer.packets_size(mtu, payload, headroom),
        _ => return WRONG_END,
    };
    match made {
        Ok(taken) => {
            count.write(taken.packets);
            size.write(taken.bytes);
            OK
        }
        Err(_) => OUT_OF_MEMORY,
    }
}

/// Copies the packets of a payload straight to memory where they fit, each behind `headroom` bytes that
/// stay, and writes where each ends; else nothing is done. The packets of the last call stay.
pub fn h26x_packetize_into(
    p: &mut Handle,
    mtu: usize,
    payload: &[u8],
    headroom: usize,
    to: &mut [u8],
    ends: &mut [usize],
    count: &mut MaybeUninit<usize>,
    size: &mut MaybeUninit<usize>,
) -> u32 {
    match p.get_mut() {
        Endpoint::Sending(it) => {
            let made = it.packetize_to_memory(mtu, payload, headroom, to, ends);
            code_of_placement(made, count, size)
        }
        _ => {
            count.write(0);
            size.write(0);
            WRONG_END
        }
    }
}

/// Copies the packets of one unit as it is straight to memory where they fit, as those of a payload.
pub fn h26x_packetize_unit_into(
    p: &mut Handle,
    mtu: usize,
    unit: &[u8],
    headroom: usize,
    to: &mut [u8],
    ends: &mut [usize],
    count: &mut MaybeUninit<usize>,
    size: &mut MaybeUninit<usize>,
) -> u32 {
    match p.get_mut() {
        Endpoint::Sending(it) => {
            let made = it.packetize_unit_to_memory(mtu, unit, headroom, to, ends);
            code_of_placement(made, count, size)
        }
        _ => {
            count.write(0);
            size.write(0);
            WRONG_END
        }
    }
}

/// How many packets there are.
pub fn h26x_packet_count(p: &ConstHandle) -> usize {
    match p.get() {
        Endpoint::Sending(it) => it.count(),
        _ => 0,
    }
}

/// The length of a packet, counted from 0; past the last one 0.
pub fn h26x_packet_len(p: &ConstHandle, i: usize) -> usize {
    match p.get() {
        Endpoint::Sending(it) => it.packet(i).len(),
        _ => 0,
    }
}

/// How many bytes the packets are together.
pub fn h26x_packets_len(p: &ConstHandle) -> usize {
    match p.get() {
        Endpoint::Sending(it) => it.bytes_len(),
        _ => 0,
    }
}

/// Copies a packet, counted from 0, where there is room for it; its length.
pub fn h26x_packet_copy(p: &ConstHandle, i: usize, to: &mut [u8]) -> usize {
    match p.get() {
        Endpoint::Sending(it) => copy_where_room(it.packet(i), to),
        _ => copy_where_room(&[], to),
    }
}

/// Copies packets, from one counted from 0 on, to the front of a buffer, one behind the other, as
/// many as there is room for, and writes where each ends; how many they are.
pub fn h26x_packets_copy(
    p: &ConstHandle,
    first: usize,
    to: &mut [u8],
    ends: &mut [usize],
) -> usize {
    match p.get() {
        Endpoint::Sending(it) => it.copy_packets(first, to, ends),
        _ => 0,
    }
}
