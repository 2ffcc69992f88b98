// Made from crates/h26x_assembler/src/assembler.rt by tools/to-rust.

//! An assembler that gives out access units.

use crate::proved::h26x_assembler::access_unit::{AccessUnit, AccessUnitSoFar, OpenAccessUnit};
use crate::proved::h26x_assembler::answers::{is_sound, was_taken};
use crate::proved::h26x_assembler::spare::SpareMemory;
use crate::proved::h26x_core::{PacketError, is_next};
use crate::proved::h26x_depacketizer::RunDepacketizer;
use crate::proved::h26x_receiver::{Received, SequencedDepacketizer};
use crate::proved::h26x_reorder::RtpPacket;
use alloc::vec::Vec;

/// Takes a packet into the access unit that was open.
#[inline(always)]
fn go_on<D: RunDepacketizer>(
    packets: &mut SequencedDepacketizer<D>,
    place: &mut OpenAccessUnit,
    packet: &RtpPacket<'_>,
    out: &mut Vec<AccessUnit>,
) -> Result<Received, PacketError> {
    if packet.marker {
        place.go_on_to_end(packets, packet, out)
    } else {
        place.go_on(packets, packet)
    }
}

/// Takes a packet as the first of an access unit: the one that is open ends.
#[inline(always)]
fn begin<D: RunDepacketizer>(
    packets: &mut SequencedDepacketizer<D>,
    place: &mut OpenAccessUnit,
    spare: &mut SpareMemory,
    packet: &RtpPacket<'_>,
    out: &mut Vec<AccessUnit>,
) -> Result<Received, PacketError> {
    let follows = place.follows(packets.expected, packet);
    let mut unit = AccessUnitSoFar::new(spare.remove(), packet.timestamp);
    let len = unit.text.len();
    let received = packets.receive_in_text(
        packet.sequence,
        packet.payload,
        !packet.marker,
        &mut unit.text,
        &mut unit.extra,
    );
    if !was_taken(&received) {
        spare.put_back(unit.text.into_text());
        return received;
    }
    let is_dropped = unit.is_dropped(len);
    let is_sound = is_sound(follows, is_dropped, &received);
    place.finish(follows, out);
    place.put(unit, is_sound, packet.marker, out);
    received
}

/// Takes a packet, and appends the access units that it ends.
#[inline(always)]
fn take<D: RunDepacketizer>(
    packets: &mut SequencedDepacketizer<D>,
    place: &mut OpenAccessUnit,
    spare: &mut SpareMemory,
    packet: &RtpPacket<'_>,
    out: &mut Vec<AccessUnit>,
) -> Result<Received, PacketError> {
    if place.is_at(packet.timestamp) {
        go_on(packets, place, packet, out)
    } else {
        begin(packets, place, spare, packet, out)
    }
}

/// Gives out access units, by the timestamps and markers of RTP packets (RFC 3550, 5.1), over a
/// [`SequencedDepacketizer`]: nothing of a unit of which a packet is missing, and of each access unit
/// whether it is known to be whole.
#[derive(Debug)]
pub struct AccessUnitAssembler<D: RunDepacketizer> {
    /// The depacketizer, with the sequence number that is expected next and the limit on its open
    /// run. Where the peer tells the number of its first packet, as in the RTP-Info of RTSP (RFC
    /// 2326, 12.33), set `expected` to it: the first access unit can then be known to be whole too.
    pub packets: SequencedDepacketizer<D>,
    /// The access unit that is open, with the open run in its text.
    pub unit: OpenAccessUnit,
    /// How many bytes the text of an open access unit may hold from a packet to the next.
    pub unit_limit: usize,
    /// Whether the last packet that was taken left a text that was longer, which was given up.
    pub is_text_given_up: bool,
    spare: SpareMemory,
}

impl<D: RunDepacketizer> AccessUnitAssembler<D> {
    /// An assembler for which no access unit is open; from a packet to the next the text of one
    /// that is may hold `unit_limit` bytes. The open run stands in the access unit; one that is
    /// open in the depacketizer itself stays there, and is not used. It takes no memory.
    pub fn new(packets: SequencedDepacketizer<D>, unit_limit: usize) -> Self {
        AccessUnitAssembler {
            packets,
            unit: OpenAccessUnit::none(),
            unit_limit,
            is_text_given_up: false,
            spare: SpareMemory::none(),
        }
    }

    /// Takes a packet, and appends the access units that it ends to `out`: another timestamp ends the
    /// one that is open, and gives up the open run, and the marker ends that of the packet itself; so
    /// there are two at most.
    ///
    /// The answer is that of [`SequencedDepacketizer::receive`]. A packet that is late, comes twice
    /// or is refused changes nothing, nor `out`: it is as if it had not come, and one refused for
    /// want of memory can be given again. The errors are those of the depacketizer.
    ///
    /// The open run is within its limit after each packet, and so is the text of the access unit that
    /// is open: where it is longer, as where a peer sends neither a marker nor another timestamp, it
    /// is given up (`is_text_given_up`), and what follows of that access unit is not told to be whole.
    #[inline(always)]
    pub fn receive(
        &mut self,
        packet: &RtpPacket<'_>,
        out: &mut Vec<AccessUnit>,
    ) -> Result<Received, PacketError> {
        out.try_reserve(2)?;
        let (packets, unit, spare) = (&mut self.packets, &mut self.unit, &mut self.spare);
        let received = take(packets, unit, spare, packet, out);
        if was_taken(&received) {
            self.limit_text();
        }
        received
    }

    /// Gives up the text of the access unit that is open where it is longer than the limit, and tells
    /// whether it was.
    #[inline(always)]
    fn limit_text(&mut self) {
        self.is_text_given_up = self.unit.limit(self.unit_limit);
    }

    /// Takes a packet without a marker into the access unit that is open, whose timestamp it has, as
    /// [`receive`](Self::receive) does: it ends none.
    #[inline(always)]
    pub(crate) fn go_on(&mut self, packet: &RtpPacket<'_>) -> Result<Received, PacketError> {
        let received = self.unit.go_on(&mut self.packets, packet);
        if was_taken(&received) {
            self.limit_text();
        }
        received
    }

    /// Takes a packet that begins an access unit, since none of its timestamp is open, as
    /// [`receive`](Self::receive) does.
    #[inline(always)]
    pub(crate) fn begin(
        &mut self,
        packet: &RtpPacket<'_>,
        out: &mut Vec<AccessUnit>,
    ) -> Result<Received, PacketError> {
        out.try_reserve(2)?;
        let (packets, unit, spare) = (&mut self.packets, &mut self.unit, &mut self.spare);
        let received = begin(packets, unit, spare, packet, out);
        if was_taken(&received) {
            self.limit_text();
        }
        received
    }

    /// Passes over a number that came and bears nothing of the stream, as
    /// [`SequencedDepacketizer::skip`] does: in order the open run and access unit stay. Where others
    /// before it are missing (`Gap`) the open run is given up, and neither the open access unit nor one
    /// that the next packet begins is known to be whole. One that is late changes nothing. It takes no
    /// memory.
    pub fn skip(&mut self, sequence: u16) -> Received {
        let is_next = is_next(self.packets.expected, sequence);
        let received = self.packets.skip_in_text(sequence);
        if received.is_taken() && !is_next {
            self.unit.break_off();
        }
        received
    }

    /// Passes over a number whose packet was refused, so that it is expected no more: the open run is
    /// given up, and neither the open access unit nor one that the next packet begins is known to be
    /// whole. The answer says how many are missing before it; where it is late nothing changes. It
    /// takes no memory.
    pub fn pass_over(&mut self, sequence: u16) -> Received {
        let received = self.packets.skip_in_text(sequence);
        if received.is_taken() {
            self.unit.break_off();
        }
        received
    }

    /// Forgets that a marker ended the last access unit, so that one of its timestamp that goes on
    /// right behind it may be known to be whole too: for a caller who asks that of each part, as where
    /// a sender sets the marker on each slice. It takes no memory.
    #[inline]
    pub fn forget_marker(&mut self) {
        self.unit.forget_marker();
    }

    /// Ends the access unit that is open, as a marker of its last packet would, and appends it: for one
    /// whose end neither the marker nor another timestamp tells, but its units. It is known to be whole
    /// where what came of it is, and no run is open, which is given up. The number that is expected
    /// stays.
    ///
    /// Without memory the error is `OutOfMemory`, and everything is left.
    pub fn end(&mut self, out: &mut Vec<AccessUnit>) -> Result<(), PacketError> {
        out.try_reserve(1)?;
        let is_gap = self.unit.is_gap();
        self.unit.finish(!is_gap, out);
        if is_gap {
            self.unit.break_off();
        }
        Ok(())
    }

    /// At the end of a stream: appends the access unit that is open, which isn't known to be whole,
    /// and gives up the open run. Any sequence number may be the next.
    ///
    /// Without memory the error is `OutOfMemory`, and everything is left.
    pub fn finish(&mut self, out: &mut Vec<AccessUnit>) -> Result<(), PacketError> {
        out.try_reserve(1)?;
        self.unit.finish(false, out);
        self.packets.restart();
        Ok(())
    }

    /// Drops the access unit that is open, gives up the open run, gives back all memory, and takes any
    /// sequence number as the next: for a peer that begins anew, whose packets are late one after the
    /// other. It takes no memory.
    pub fn restart(&mut self) {
        self.packets.restart();
        self.spare = SpareMemory::none();
        self.unit = OpenAccessUnit::none();
    }

    /// Takes back an access unit that was given out, for its memory: a later one is written there.
    /// Of those that are given back the one with the most room is kept, until one begins; none with
    /// room for more than `unit_limit` bytes, nor for more than 2^20 bytes and than twice those of
    /// the longest of the last 64 that were given back.
    pub fn give_back(&mut self, unit: AccessUnit) {
        self.spare.keep(unit.bytes, self.unit_limit);
    }
}
