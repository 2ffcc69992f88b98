// Made from crates/h26x_packetizer/src/placement.rt by tools/to-rust.

//! Packets in memory of the caller.

use crate::proved::h26x_packetizer::packet_parts::PacketParts;

/// How much memory packets take.
#[derive(Debug, Clone, Copy, PartialEq, Eq)]
pub struct PacketsSize {
    /// How many packets there are.
    pub packets: usize,
    /// Their bytes, with what is left free before each; the greatest number where they are more.
    pub bytes: usize,
}

/// What came of packets that were to go into memory of the caller.
#[derive(Debug, Clone, Copy, PartialEq, Eq)]
pub enum Placement {
    /// They stand there.
    Placed(PacketsSize),
    /// They don't fit, and nothing was done.
    NoRoom(PacketsSize),
}

/// How much memory packets take, each behind so many bytes.
pub(crate) fn size_of(packets: &[PacketParts<'_>], headroom: usize) -> PacketsSize {
    let mut bytes: usize = 0;
    for packet in packets {
        bytes = bytes.saturating_add(headroom).saturating_add(packet.len());
    }
    PacketsSize {
        packets: packets.len(),
        bytes,
    }
}

/// Copies packets one behind the other to the front of memory, each behind so many bytes that stay,
/// and writes where each ends.
fn lay(packets: &[PacketParts<'_>], headroom: usize, to: &mut [u8], ends: &mut [usize]) {
    let mut count = 0;
    let mut place = 0;
    while count < packets.len() {
        let start = place + headroom;
        let end = start + packets[count].len();
        packets[count].copy_to(&mut to[start..end]);
        ends[count] = end;
        place = end;
        count += 1;
    }
}

/// Copies packets to the front of memory where they fit.
pub(crate) fn place(
    packets: &[PacketParts<'_>],
    headroom: usize,
    to: &mut [u8],
    ends: &mut [usize],
) -> Placement {
    let size = size_of(packets, headroom);
    if size.bytes > to.len() || size.packets > ends.len() {
        return Placement::NoRoom(size);
    }
    lay(packets, headroom, to, ends);
    Placement::Placed(size)
}

/// Copies a packet to the front of memory where it fits.
#[inline(always)]
pub(crate) fn place_one(
    packet: &PacketParts<'_>,
    headroom: usize,
    to: &mut [u8],
    ends: &mut [usize],
) -> Placement {
    let end = headroom.saturating_add(packet.len());
    let size = PacketsSize {
        packets: 1,
        bytes: end,
    };
    if end > to.len() || ends.is_empty() {
        return Placement::NoRoom(size);
    }
    packet.copy_to(&mut to[headroom..end]);
    ends[0] = end;
    Placement::Placed(size)
}
