// Made from crates/h26x_codes/src/copy.rt by tools/to-rust.

//! Copies into a caller's buffer.

use crate::proved::h26x_packetizer::PacketBuffer;
use alloc::vec::Vec;
use core::{cmp, mem};

/// Copies bytes to the front of a buffer where there is room for them; how many they are.
pub fn copy_where_room(bytes: &[u8], to: &mut [u8]) -> usize {
    let len = bytes.len();
    if len <= to.len() {
        to[..len].copy_from_slice(bytes);
    }
    len
}

/// Moves bytes to the front of a buffer where there is room for them, and else to a list, which is
/// empty otherwise; how many they are.
pub fn put_or_keep(bytes: &mut Vec<u8>, to: &mut [u8], kept: &mut Vec<u8>) -> usize {
    let len = copy_where_room(bytes, to);
    kept.clear();
    if len > to.len() {
        mem::swap(kept, bytes);
    }
    len
}

/// Copies the first entries to the front of a buffer, as many as there is room for; how many they
/// all are.
pub fn copy_first<T: Copy>(entries: &[T], to: &mut [T]) -> usize {
    let len = cmp::min(entries.len(), to.len());
    to[..len].copy_from_slice(&entries[..len]);
    entries.len()
}

/// Where packets end that have no headroom.
pub(crate) fn packet_ends(packets: &PacketBuffer) -> &[usize] {
    packets.packet_ends()
}

/// Where the packet at a place begins.
pub(crate) fn start_of(packets: &PacketBuffer, place: usize) -> usize {
    if place == 0 {
        return 0;
    }
    packet_ends(packets)[place - 1]
}

/// The bytes of packets from a first one on, one behind the other.
pub(crate) fn bytes_from(packets: &PacketBuffer, first: usize) -> &[u8] {
    &packets.bytes()[start_of(packets, first)..]
}

/// Writes where packets from a first one on end, counted from where it begins, as many as there is
/// room for; how many they are, and how many bytes they have.
fn copy_ends(
    packets: &PacketBuffer,
    first: usize,
    room: usize,
    ends: &mut [usize],
) -> (usize, usize) {
    let start = start_of(packets, first);
    let from = &packet_ends(packets)[first..];
    let mut count = 0;
    let mut place = 0;
    while count < from.len() && count < ends.len() {
        let end = from[count] - start;
        if end > room {
            break;
        }
        ends[count] = end;
        place = end;
        count += 1;
    }
    (count, place)
}

/// Copies packets from a first one on to the front of a buffer, one behind the other, as many as
/// there is room for, and writes where each ends; how many they are. They stand so already, and all
/// that fit are copied at once.
pub(crate) fn copy_packets(
    packets: &PacketBuffer,
    first: usize,
    to: &mut [u8],
    ends: &mut [usize],
) -> usize {
    if first > packets.len() {
        return 0;
    }
    let (count, len) = copy_ends(packets, first, to.len(), ends);
    to[..len].copy_from_slice(&bytes_from(packets, first)[..len]);
    count
}
