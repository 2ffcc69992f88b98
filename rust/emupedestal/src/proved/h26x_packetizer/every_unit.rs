// Made from crates/h26x_packetizer/src/every_unit.rt by tools/to-rust.

//! Packets of units, none of which is left out.

use crate::proved::h26x_packetizer::buffer::{Appending, PacketBuffer};
use crate::proved::h26x_packetizer::every::{push_in_one, push_units};
use crate::proved::h26x_packetizer::every_format::EveryFormat;
use crate::proved::h26x_packetizer::group::go_in_one;
use crate::proved::h26x_packetizer::packet_parts::{OnePacket, PacketParts};
use crate::proved::h26x_packetizer::packetizer::PayloadPacketizer;
use crate::proved::h26x_packetizer::packing::Packing;
use crate::proved::h26x_packetizer::placement::{PacketsSize, Placement, place, size_of};
use crate::proved::h26x_packetizer::refusal::{RefusedUnit, units_refusal};
use crate::proved::h26x_packetizer::sink::PacketSink;
use crate::proved::h26x_packetizer::units::fits_one;
use crate::support::AllocError;
use alloc::vec::Vec;

/// Why units are refused. A refused call changes nothing.
#[derive(Debug, Clone, Copy, PartialEq, Eq)]
pub enum EveryUnitError {
    /// The first unit that can't go.
    Unit(RefusedUnit),
    /// The allocator had no memory.
    OutOfMemory,
}

impl<C: EveryFormat> PayloadPacketizer<C> {
    /// Appends the packets of units; the next number.
    fn prepare_units<'a, S: PacketSink<'a>>(
        &self,
        packing: Packing,
        mtu: usize,
        units: &'a [&'a [u8]],
        made: &mut S,
    ) -> Result<u16, EveryUnitError> {
        let limit = self.limit(mtu);
        if let Some(unit) = units_refusal(self.codec, packing, limit, units) {
            return Err(EveryUnitError::Unit(unit));
        }
        // (room for a few at once: a list that grows packet by packet moves more often)
        if units.len() > 1 {
            made.try_reserve(1)?;
        }
        match push_units(self.codec, packing, limit, self.next_don, units, made) {
            Ok(next_don) => {
                let next_don = if self.codec.has_donl() {
                    next_don
                } else {
                    self.next_don
                };
                Ok(next_don)
            }
            Err(_) => Err(EveryUnitError::OutOfMemory),
        }
    }

    /// Appends the packet of several units that all can go, and in one; the next number. `None` where
    /// they don't: then it isn't said what can't go.
    #[inline(always)]
    fn prepare_in_one<'a, S: PacketSink<'a>>(
        &self,
        packing: Packing,
        mtu: usize,
        units: &'a [&'a [u8]],
        made: &mut S,
    ) -> Option<u16> {
        let limit = self.limit(mtu);
        if !go_in_one(self.codec, packing, limit, units) {
            return None;
        }
        match push_in_one(self.codec, limit, self.next_don, units, made) {
            Ok(next_don) if self.codec.has_donl() => Some(next_don),
            Ok(_) => Some(self.next_don),
            Err(_) => None,
        }
    }

    /// The packets of the NAL units of one access unit, each without its start code, in order and as
    /// they are: a unit alone, those that fit one packet together (RFC 6184, 5.7.1; RFC 7798, 4.4.2;
    /// RFC 9328, 4.3.2), and one that is longer than a packet in fragments.
    ///
    /// Where all may share a packet no sender that brings these units needs fewer: a law of
    /// h26x_model. With decoding order numbers each unit takes one. Sets that wait stay, whatever
    /// kinds the units are of.
    ///
    /// The first unit that can't go is named, and nothing is sent then: one without a whole header,
    /// with F set, of a type that no unit has, or too long where no fragment has room for data. Else
    /// `OutOfMemory` is its only error. Both leave everything.
    pub fn packetize_units<'a>(
        &mut self,
        packing: Packing,
        mtu: usize,
        units: &'a [&'a [u8]],
    ) -> Result<Vec<Vec<u8>>, EveryUnitError> {
        let mut made = Vec::new();
        let next_don = self.prepare_units(packing, mtu, units, &mut made)?;
        self.next_don = next_don;
        Ok(made)
    }

    /// Appends the packets of [`packetize_units`](PayloadPacketizer::packetize_units) to a buffer, each
    /// behind its headroom.
    pub fn packetize_units_into<'a>(
        &mut self,
        packing: Packing,
        mtu: usize,
        units: &'a [&'a [u8]],
        into: &mut PacketBuffer,
    ) -> Result<(), EveryUnitError> {
        let mut made = Appending::from_buffer(into);
        match self.prepare_units(packing, mtu, units, &mut made) {
            Ok(next_don) => {
                made.finish(into)?;
                self.next_don = next_don;
                Ok(())
            }
            Err(e) => {
                made.give_up(into);
                Err(e)
            }
        }
    }

    /// How much memory the packets of units take, each behind `headroom` bytes, as
    /// [`packetize_units_to_memory`](PayloadPacketizer::packetize_units_to_memory) would place them
    /// now. Nothing changes, and units are refused as there.
    pub fn units_size<'a>(
        &self,
        packing: Packing,
        mtu: usize,
        units: &'a [&'a [u8]],
        headroom: usize,
    ) -> Result<PacketsSize, EveryUnitError> {
        let mut made: Vec<PacketParts<'a>> = Vec::new();
        self.prepare_units(packing, mtu, units, &mut made)?;
        Ok(size_of(&made, headroom))
    }

    /// Copies the packets of units to memory where they fit; the next number. One packet is placed
    /// without a list of packets.
    fn prepare_units_placed<'a>(
        &self,
        packing: Packing,
        mtu: usize,
        units: &'a [&'a [u8]],
        headroom: usize,
        to: &mut [u8],
        ends: &mut [usize],
    ) -> Result<(Placement, u16), EveryUnitError> {
        let mut aggregate = OnePacket::new();
        if let Some(next_don) = self.prepare_in_one(packing, mtu, units, &mut aggregate) {
            return Ok((aggregate.place(headroom, to, ends), next_don));
        }
        if units.len() == 1 && fits_one(self.codec, self.limit(mtu), units[0]) {
            let mut single = OnePacket::new();
            if let Ok(next_don) = self.prepare_units(packing, mtu, units, &mut single) {
                return Ok((single.place(headroom, to, ends), next_don));
            }
        }
        let mut made: Vec<PacketParts<'a>> = Vec::new();
        let next_don = self.prepare_units(packing, mtu, units, &mut made)?;
        Ok((place(&made, headroom, to, ends), next_don))
    }

    /// Copies the packets of [`packetize_units`](PayloadPacketizer::packetize_units) straight to memory
    /// of the caller, as [`packetize_to_memory`](PayloadPacketizer::packetize_to_memory) does those of
    /// a payload.
    pub fn packetize_units_to_memory<'a>(
        &mut self,
        packing: Packing,
        mtu: usize,
        units: &'a [&'a [u8]],
        headroom: usize,
        to: &mut [u8],
        ends: &mut [usize],
    ) -> Result<Placement, EveryUnitError> {
        let (placement, next_don) =
            self.prepare_units_placed(packing, mtu, units, headroom, to, ends)?;
        if let Placement::Placed(_) = placement {
            self.next_don = next_don;
        }
        Ok(placement)
    }
}

impl From<AllocError> for EveryUnitError {
    fn from(_e: AllocError) -> EveryUnitError {
        EveryUnitError::OutOfMemory
    }
}
