//! Packets in one buffer.

use crate::support::{AllocError, Count};
use alloc::vec::Vec;
use core::fmt;
use core::ops::{Index, Range};

/// The packets of a call, one behind the other in one buffer, which keeps its memory from call to
/// call.
///
/// Before each packet so many bytes are left as [`with_headroom`](Self::with_headroom) says, for the
/// headers of the layers below. What stands there is the caller's: a call that makes packets leaves
/// it as it is, so write all of it.
///
/// ```
/// use emupedestal::{H264Packetizer, Packets};
///
/// let mut packetizer = H264Packetizer::default();
/// let mut packets = Packets::with_headroom(12);
/// packetizer.packetize_into(5, &[0, 0, 1, 0x65, 1, 2, 3, 4, 5, 6], &mut packets)?;
/// assert_eq!(packets.len(), 2);
/// assert_eq!(packets[0], [0x7c, 0x85, 1, 2, 3]);
/// for i in 0..packets.len() {
///     // The header of RTP (RFC 3550, 5.1), and behind it the packet: ready for a socket.
///     let datagram = packets.datagram_mut(i);
///     datagram[0] = 0x80;
///     assert_eq!(datagram.len(), 12 + 5);
/// }
/// # Ok::<(), emupedestal::PacketError>(())
/// ```
#[derive(Default, Clone)]
pub struct Packets {
    // Both have all that they ever had room for; the packets stand in front.
    bytes: Vec<u8>,
    ends: Vec<usize>,
    count: usize,
    headroom: usize,
}

impl Packets {
    /// No packets yet, and so many bytes before each of those that come, in bytes.
    pub fn with_headroom(headroom: usize) -> Self {
        Packets {
            headroom,
            ..Packets::default()
        }
    }

    /// How many bytes are before each packet.
    pub fn headroom(&self) -> usize {
        self.headroom
    }

    /// How many packets there are.
    pub fn len(&self) -> usize {
        self.count
    }

    /// Whether there are none.
    pub fn is_empty(&self) -> bool {
        self.count == 0
    }

    /// Packet `i`, counted from 0, without what is before it.
    pub fn get(&self, i: usize) -> Option<&[u8]> {
        let place = self.place(i)?;
        Some(&self.bytes[place.start + self.headroom..place.end])
    }

    /// The packets, in order, each without what is before it.
    pub fn iter(&self) -> PacketIter<'_> {
        self.into_iter()
    }

    /// Packet `i` behind its headroom, to be written: what goes to a socket once the headers stand
    /// there. It panics past the last.
    pub fn datagram_mut(&mut self, i: usize) -> &mut [u8] {
        let place = self.place(i).expect("a packet with this number");
        &mut self.bytes[place]
    }

    /// All packets, one behind the other, each behind its headroom.
    pub fn bytes(&self) -> &[u8] {
        &self.bytes[..self.end_of_first(self.count)]
    }

    /// The same, to be written in place.
    pub fn bytes_mut(&mut self) -> &mut [u8] {
        let len = self.end_of_first(self.count);
        &mut self.bytes[..len]
    }

    /// Where each packet ends in [`bytes`](Self::bytes). It begins, with its headroom, where the one
    /// before it ends.
    pub fn ends(&self) -> &[usize] {
        &self.ends[..self.count]
    }

    /// All packets, to be written in place, and where each ends.
    pub(crate) fn parts_mut(&mut self) -> (&mut [u8], &[usize]) {
        let len = self.end_of_first(self.count);
        (&mut self.bytes[..len], &self.ends[..self.count])
    }

    /// Where packet `i` stands with its headroom.
    fn place(&self, i: usize) -> Option<Range<usize>> {
        Some(self.end_of_first(i)..*self.ends().get(i)?)
    }

    /// Where the first so many packets end.
    fn end_of_first(&self, count: usize) -> usize {
        if count == 0 { 0 } else { self.ends[count - 1] }
    }

    /// All the room there is for packets and their ends.
    pub(crate) fn room(&mut self) -> (&mut [u8], &mut [usize]) {
        (&mut self.bytes, &mut self.ends)
    }

    /// Makes room for so many packets, of so many bytes with what is before them. Those that stand
    /// here stay.
    pub(crate) fn grow(&mut self, count: usize, bytes: usize) {
        if self.bytes.len() < bytes {
            self.bytes.resize(bytes.max(self.bytes.capacity()), 0);
        }
        if self.ends.len() < count {
            self.ends.resize(count.max(self.ends.capacity()), 0);
        }
    }

    /// The same, or an error where there is no memory for it.
    pub(crate) fn try_grow(&mut self, count: usize, bytes: usize) -> Result<(), AllocError> {
        self.bytes
            .try_reserve(bytes.saturating_sub(self.bytes.len()))?;
        self.ends
            .try_reserve(count.saturating_sub(self.ends.len()))?;
        self.grow(count, bytes);
        Ok(())
    }

    /// Takes the first so many packets that were written into that room.
    pub(crate) fn take(&mut self, count: usize) {
        self.count = count;
    }

    /// Copies of packets, in the place of those that stand here.
    pub(crate) fn replace(&mut self, packets: &[Vec<u8>]) {
        let headroom = self.headroom;
        let size = packets.iter().map(|packet| headroom + packet.len()).sum();
        self.grow(packets.len(), size);
        let mut end = 0;
        for (i, packet) in packets.iter().enumerate() {
            let begin = end + headroom;
            end = begin + packet.len();
            self.bytes[begin..end].copy_from_slice(packet);
            self.ends[i] = end;
        }
        self.take(packets.len());
    }
}

/// Packet `i`, counted from 0, without what is before it; it panics past the last.
impl Index<usize> for Packets {
    type Output = [u8];

    fn index(&self, i: usize) -> &[u8] {
        self.get(i).expect("a packet with this number")
    }
}

/// As a list of how long the packets are.
impl fmt::Debug for Packets {
    fn fmt(&self, f: &mut fmt::Formatter<'_>) -> fmt::Result {
        f.debug_list()
            .entries(self.iter().map(|packet| Count(packet.len())))
            .finish()
    }
}

/// The same packets with the same bytes before them.
impl PartialEq for Packets {
    fn eq(&self, other: &Self) -> bool {
        self.headroom == other.headroom
            && self.ends() == other.ends()
            && self.bytes() == other.bytes()
    }
}

impl Eq for Packets {}

impl<'a> IntoIterator for &'a Packets {
    type Item = &'a [u8];
    type IntoIter = PacketIter<'a>;

    fn into_iter(self) -> PacketIter<'a> {
        PacketIter {
            packets: self,
            left: 0..self.len(),
        }
    }
}

/// The packets of [`Packets`], in order.
#[derive(Debug, Clone)]
pub struct PacketIter<'a> {
    packets: &'a Packets,
    left: Range<usize>,
}

impl<'a> Iterator for PacketIter<'a> {
    type Item = &'a [u8];

    fn next(&mut self) -> Option<&'a [u8]> {
        self.packets.get(self.left.next()?)
    }

    fn size_hint(&self) -> (usize, Option<usize>) {
        self.left.size_hint()
    }
}

impl ExactSizeIterator for PacketIter<'_> {}
