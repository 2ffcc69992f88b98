// Made from crates/h26x_packetizer/src/buffer.rt by tools/to-rust.

//! Packets behind each other in one buffer.

pub mod memory;

use self::memory::{BufferMemory, is_at_most, make_room};
use crate::proved::h26x_packetizer::body::{Body, put_packet};
use crate::proved::h26x_packetizer::sink::PacketSink;
use crate::support::AllocError;
use alloc::vec::Vec;
use core::mem;

/// How many packets' ends a buffer has room for at first.
const FIRST_ENDS: usize = 8;

/// Packets behind each other in one buffer, and before each so many bytes that are free for the
/// headers of the layers below (as of RTP, RFC 3550, 5.1). A buffer that is cleared keeps its
/// memory.
pub struct PacketBuffer {
    bytes: Vec<u8>,
    ends: Vec<usize>,
    headroom: usize,
}

/// Of bytes it tells how many there are.
impl core::fmt::Debug for PacketBuffer {
    fn fmt(&self, f: &mut core::fmt::Formatter<'_>) -> core::fmt::Result {
        use crate::support::Count;
        f.debug_struct("PacketBuffer")
            .field("bytes", &Count(self.bytes.len()))
            .field("ends", &self.ends)
            .field("headroom", &self.headroom)
            .finish()
    }
}

/// Where the first so many packets end.
fn end_of_first(ends: &[usize], count: usize) -> usize {
    if count == 0 { 0 } else { ends[count - 1] }
}

/// Where the packet at a place begins and ends.
fn bounds_of(headroom: usize, _bytes: &[u8], ends: &[usize], place: usize) -> (usize, usize) {
    let end = ends[place];
    let start = end_of_first(ends, place) + headroom;
    (start, end)
}

impl PacketBuffer {
    /// A buffer without packets, with so many free bytes before each.
    pub fn new(headroom: usize) -> Self {
        PacketBuffer {
            bytes: Vec::new(),
            ends: Vec::new(),
            headroom,
        }
    }

    /// How many packets it holds.
    pub fn len(&self) -> usize {
        self.ends.len()
    }

    /// For how much it has memory.
    pub fn memory(&self) -> BufferMemory {
        BufferMemory {
            bytes: self.bytes.capacity(),
            ends: self.ends.capacity(),
        }
    }

    /// Whether it has no more memory than what stands in it may take, where it had so much before.
    fn is_within(&self, before: BufferMemory) -> bool {
        is_at_most(self.bytes.capacity(), before.bytes, self.bytes.len())
            && is_at_most(
                self.ends.capacity(),
                before.ends,
                self.ends.len() + FIRST_ENDS,
            )
    }

    /// The bytes that are free before each packet.
    pub fn headroom(&self) -> usize {
        self.headroom
    }

    /// The packet at a place.
    #[allow(dead_code, reason = "the C library has it")]
    pub(crate) fn packet(&self, place: usize) -> &[u8] {
        let (start, end) = bounds_of(self.headroom, &self.bytes, &self.ends, place);
        &self.bytes[start..end]
    }

    /// All bytes as they lie: the packets behind each other, each behind its headroom.
    #[allow(dead_code, reason = "the C library has it")]
    pub fn bytes(&self) -> &[u8] {
        &self.bytes
    }

    /// The places of [`bytes`](PacketBuffer::bytes) where packets end. Each begins where the one
    /// before it ends, with its headroom.
    #[allow(dead_code, reason = "the C library has it")]
    pub fn packet_ends(&self) -> &[usize] {
        &self.ends
    }

    /// Keeps the first so many packets with their headrooms, in the same memory.
    pub fn truncate(&mut self, count: usize) {
        if count < self.ends.len() {
            self.bytes.truncate(end_of_first(&self.ends, count));
            self.ends.truncate(count);
        }
    }

    /// Drops every packet, and keeps the memory.
    #[allow(dead_code, reason = "the C library has it")]
    pub fn clear(&mut self) {
        self.bytes.clear();
        self.ends.clear();
    }

    /// Appends a packet of these parts, one behind the other, behind a headroom of zeros.
    #[inline(always)]
    fn push_parts(&mut self, header: &[u8], donl: &[u8], body: Body<'_>) -> Result<(), AllocError> {
        let len = header
            .len()
            .saturating_add(donl.len())
            .saturating_add(body.len());
        make_room(&mut self.ends, 1, FIRST_ENDS)?;
        make_room(&mut self.bytes, self.headroom.saturating_add(len), 0)?;
        put_packet(self.headroom, header, donl, body, &mut self.bytes);
        self.ends.push(self.bytes.len());
        Ok(())
    }
}

/// A buffer to which packets are appended, and how many and how much memory it had before.
pub(crate) struct Appending {
    buffer: PacketBuffer,
    first: usize,
    memory: BufferMemory,
}

impl Appending {
    /// The buffer, removed from its place, with nothing appended yet; an empty one stands there.
    pub(crate) fn from_buffer(into: &mut PacketBuffer) -> Self {
        let headroom = into.headroom();
        let buffer = mem::replace(into, PacketBuffer::new(headroom));
        let first = buffer.len();
        let memory = buffer.memory();
        Appending {
            buffer,
            first,
            memory,
        }
    }

    /// Puts the buffer in its place, with what was appended; as it was where it has more memory than it
    /// may, which is want of memory.
    pub(crate) fn finish(self, into: &mut PacketBuffer) -> Result<(), AllocError> {
        if self.buffer.is_within(self.memory) {
            *into = self.buffer;
            Ok(())
        } else {
            self.give_up(into);
            Err(AllocError)
        }
    }

    /// Puts the buffer in its place, as it was.
    pub(crate) fn give_up(self, into: &mut PacketBuffer) {
        let mut buffer = self.buffer;
        buffer.truncate(self.first);
        *into = buffer;
    }
}

impl<'a> PacketSink<'a> for Appending {
    #[inline(always)]
    fn try_push(&mut self, header: &[u8], donl: &[u8], body: Body<'a>) -> Result<(), AllocError> {
        self.buffer.push_parts(header, donl, body)
    }

    /// None: the buffer grows with its packets, and so has no memory for those that don't come.
    #[inline(always)]
    fn try_reserve(&mut self, _count: usize) -> Result<(), AllocError> {
        Ok(())
    }
}
