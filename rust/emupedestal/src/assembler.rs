//! Access units from packets that a network loses, repeats and reorders.

use crate::proved::h26x_assembler::{self, AccessUnitAssembler as Assembler};
use crate::proved::h26x_codec::AnyPayloadDepacketizer;
use crate::proved::h26x_receiver::SequencedDepacketizer;
use crate::sequenced::{copied, expect_the_same};
use crate::{
    AccessUnit, Codec, NotHeld, NotHeldReason, PacketError, Pushed, Received, ReorderBuffer,
    RtpPacket,
};
use alloc::vec::Vec;
use core::fmt;

impl ReorderBuffer {
    /// Takes a packet, and copies it. Without memory the buffer stays as it was, and the packet can be
    /// given again. [`push_held`](Self::push_held) takes one that has memory of its own, and copies nothing.
    pub fn push(&mut self, packet: &RtpPacket<'_>) -> Result<Pushed, PacketError> {
        Ok(self.try_push(packet)?)
    }
}

impl fmt::Display for NotHeld {
    fn fmt(&self, f: &mut fmt::Formatter<'_>) -> fmt::Result {
        match self.reason {
            NotHeldReason::Late(behind) => {
                write!(f, "the packet is {behind} behind the one that is due")
            }
            NotHeldReason::Twice => f.write_str("a packet with its number is held"),
            NotHeldReason::OutOfMemory => f.write_str("out of memory"),
        }
    }
}

impl core::error::Error for NotHeld {}

/// An assembler of any codec that gives out access units, by the timestamps and markers of their packets
/// (RFC 6184, 5.1; RFC 7798, 4.1; RFC 9328, 4.1), and tells of each whether it is known to be whole.
///
/// Packets must come in the order of their sequence numbers: put a [`ReorderBuffer`] before it. It shows no
/// packet, and copies none for that; a [`SequencedDepacketizer`](crate::SequencedDepacketizer) of H.265 does.
///
/// `clone` copies all that is open. It panics where memory lacks.
///
/// ```
/// use emupedestal::{AccessUnitAssembler, Codec, ReorderBuffer, RtpPacket};
///
/// let mut buffer = ReorderBuffer::new(2);
/// let mut assembler = AccessUnitAssembler::new(Codec::H264, 4_000_000, 8_000_000);
/// let mut units = Vec::new();
/// // Two fragments of a unit, which come in the other order, and a unit of the next picture.
/// let packets: [(u16, u32, bool, &[u8]); 3] = [
///     (8, 3000, true, &[0x7c, 0x45, 2]),
///     (7, 3000, false, &[0x7c, 0x85, 1]),
///     (9, 6000, true, &[0x61, 9]),
/// ];
/// for (sequence, timestamp, marker, payload) in packets {
///     let packet = RtpPacket { sequence, timestamp, marker, payload };
///     buffer.push(&packet)?;
///     while let Some(held) = buffer.pop() {
///         assembler.receive(&held.packet(), &mut units)?;
///     }
/// }
/// while let Some(held) = buffer.pop_first() {
///     assembler.receive(&held.packet(), &mut units)?;
/// }
/// assert_eq!(units.len(), 2);
/// assert_eq!(units[0].bytes, [0, 0, 0, 1, 0x65, 1, 2]);
/// assert_eq!(units[1].bytes, [0, 0, 0, 1, 0x61, 9]);
/// assert!(units[1].is_whole);
/// # Ok::<(), emupedestal::PacketError>(())
/// ```
#[derive(Debug)]
pub struct AccessUnitAssembler {
    inner: Assembler<AnyPayloadDepacketizer>,
}

impl Clone for AccessUnitAssembler {
    fn clone(&self) -> Self {
        let packets = &self.inner.packets;
        let packets = copied(packets, packets.depacketizer.try_clone());
        let mut inner = Assembler::new(packets, self.inner.unit_limit);
        inner.unit = self.inner.unit.clone();
        AccessUnitAssembler { inner }
    }
}

impl PartialEq for AccessUnitAssembler {
    fn eq(&self, other: &Self) -> bool {
        let (one, two) = (&self.inner.packets, &other.inner.packets);
        one.depacketizer.is_same(&two.depacketizer)
            && expect_the_same(one, two)
            && self.inner.unit == other.inner.unit
            && self.inner.unit_limit == other.inner.unit_limit
    }
}

impl Eq for AccessUnitAssembler {}

impl AccessUnitAssembler {
    /// An assembler with nothing open, which takes any sequence number as the first. It reads no decoding
    /// order numbers, and writes start codes.
    ///
    /// `run_limit` is how many bytes of data an open unit may hold from a packet to the next, and
    /// `unit_limit` how many an open access unit may.
    pub fn new(codec: Codec, run_limit: usize, unit_limit: usize) -> Self {
        let packets = SequencedDepacketizer::new(AnyPayloadDepacketizer::new(codec), run_limit);
        AccessUnitAssembler {
            inner: Assembler::new(packets, unit_limit),
        }
    }

    /// Its codec.
    pub fn codec(&self) -> Codec {
        self.inner.packets.depacketizer.codec()
    }

    /// Sets whether packets bear decoding order numbers, as
    /// [`SequencedDepacketizer::with_donl`](crate::SequencedDepacketizer::with_donl) does.
    pub fn with_donl(&mut self, value: bool) {
        self.inner.packets.depacketizer.with_donl(value);
    }

    /// Sets whether units are written behind lengths of four bytes.
    pub fn set_avc(&mut self, value: bool) {
        self.inner.packets.depacketizer.is_avc = value;
    }

    /// Takes a packet, and appends the access units that it ends to `out`: none, one or two.
    ///
    /// A packet that is late, comes twice or is refused changes nothing.
    pub fn receive(
        &mut self,
        packet: &RtpPacket<'_>,
        out: &mut Vec<AccessUnit>,
    ) -> Result<Received, PacketError> {
        self.inner.receive(packet, out)
    }

    /// Takes packets in any order: puts those in order that come within this window of packets, 1 to 2^14, by a
    /// [`ReorderBuffer`] of its own, which copies none, and answers what became of each that it gave out. One that is
    /// refused is passed over, and so are those that came too late or twice. [`finish`](Self::finish) gives out what is
    /// open behind them.
    ///
    /// # Errors
    ///
    /// `OutOfMemory` alone, where there is none for the packets' order and the answers: nothing was taken then.
    ///
    /// # Panics
    ///
    /// Where the window is 0 or above 2^14.
    ///
    /// ```
    /// use emupedestal::{AccessUnitAssembler, Codec, Received, RtpPacket};
    ///
    /// let mut assembler = AccessUnitAssembler::new(Codec::H264, 4_000_000, 8_000_000);
    /// // Two fragments of a unit, which come in the other order.
    /// let last = RtpPacket { sequence: 8, timestamp: 3000, marker: true, payload: &[0x7c, 0x45, 2] };
    /// let first = RtpPacket { sequence: 7, timestamp: 3000, marker: false, payload: &[0x7c, 0x85, 1] };
    /// let mut units = Vec::new();
    /// let answers = assembler.assemble_all(64, &[last, first], &mut units)?;
    /// assert_eq!(answers, [Ok(Received::InOrder), Ok(Received::InOrder)]);
    /// assert_eq!(units[0].bytes, [0, 0, 0, 1, 0x65, 1, 2]);
    /// # Ok::<(), emupedestal::PacketError>(())
    /// ```
    #[inline]
    pub fn assemble_all(
        &mut self,
        window: u16,
        packets: &[RtpPacket<'_>],
        out: &mut Vec<AccessUnit>,
    ) -> Result<Vec<Result<Received, PacketError>>, PacketError> {
        h26x_assembler::assemble_all(&mut self.inner, window, packets, out)
    }

    /// Passes over a number that came and bears nothing of the stream, as
    /// [`SequencedDepacketizer::skip`](crate::SequencedDepacketizer::skip) does: in order what is open stays.
    /// Behind a gap the open unit is given up, and the open access unit isn't told to be whole.
    pub fn skip(&mut self, sequence: u16) -> Received {
        self.inner.skip(sequence)
    }

    /// Ends the access unit that is open, if one is, and appends it; any sequence number is the next.
    pub fn finish(&mut self, out: &mut Vec<AccessUnit>) -> Result<(), PacketError> {
        self.inner.finish(out)
    }

    /// Drops what is open, and takes any sequence number as the next. It takes no memory.
    pub fn restart(&mut self) {
        self.inner.restart();
    }

    /// Takes an access unit's memory back, for a later one: of those that are given back the largest of at
    /// most `unit_limit` bytes is kept.
    pub fn give_back(&mut self, unit: AccessUnit) {
        self.inner.give_back(unit);
    }

    /// How many bytes of data the open unit holds.
    pub fn run_len(&self) -> usize {
        self.inner.unit.run_len()
    }

    /// How many bytes the open access unit holds.
    pub fn unit_len(&self) -> usize {
        self.inner.unit.bytes_len()
    }
}
