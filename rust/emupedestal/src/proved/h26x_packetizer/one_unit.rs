// Made from crates/h26x_packetizer/src/one_unit.rt by tools/to-rust.

//! The packets of one unit as it is, for every codec.

use crate::proved::h26x_core::PacketError;
use crate::proved::h26x_packetizer::buffer::{Appending, PacketBuffer};
use crate::proved::h26x_packetizer::packet_parts::PacketParts;
use crate::proved::h26x_packetizer::packetizer::PayloadPacketizer;
use crate::proved::h26x_packetizer::placement::{Placement, place};
use crate::proved::h26x_packetizer::sink::PacketSink;
use crate::proved::h26x_packetizer::units::push_unit;
use crate::proved::h26x_packetizer::update::Update;
use crate::proved::h26x_payload::PayloadFormat;
use alloc::vec::Vec;

impl<C: PayloadFormat> PayloadPacketizer<C> {
    /// Appends the packets of one unit as it is, and tells what the call changes.
    fn prepare_unit<'a, S: PacketSink<'a>>(
        &'a self,
        mtu: usize,
        unit: &'a [u8],
        made: &mut S,
    ) -> Result<Update, PacketError> {
        if mtu < self.codec.least_mtu() || unit.len() < self.codec.header_len() {
            return Ok(Update::number(self.next_don));
        }
        let next_don = push_unit(self.codec, self.limit(mtu), self.next_don, unit, made)?;
        let next_don = if self.codec.has_donl() {
            next_don
        } else {
            self.next_don
        };
        Ok(Update::number(next_don))
    }

    /// The packets of one NAL unit as it is, without a start code and whatever its kind: itself, or
    /// its fragments. Nothing is searched in it, and the sets that wait stay.
    ///
    /// So whoever has units sends each without copying it, and whoever has several parameter sets of
    /// a kind, or wants them again, sends these himself. There are no packets where the unit has no
    /// whole header, under the least `mtu`, and of a unit longer than a packet where no fragment
    /// has room for data. A unit whose type is one of packets, as an aggregate, is not read back as
    /// a unit.
    ///
    /// `OutOfMemory` is its only error, and leaves everything.
    pub fn packetize_unit(&mut self, mtu: usize, unit: &[u8]) -> Result<Vec<Vec<u8>>, PacketError> {
        let mut made = Vec::new();
        let update = self.prepare_unit(mtu, unit, &mut made)?;
        self.commit(update);
        Ok(made)
    }

    /// Appends the packets of [`packetize_unit`](PayloadPacketizer::packetize_unit) to a buffer, each
    /// behind its headroom.
    ///
    /// `OutOfMemory` is its only error, and leaves everything.
    pub fn packetize_unit_into(
        &mut self,
        mtu: usize,
        unit: &[u8],
        into: &mut PacketBuffer,
    ) -> Result<(), PacketError> {
        let mut made = Appending::from_buffer(into);
        match self.prepare_unit(mtu, unit, &mut made) {
            Ok(update) => {
                made.finish(into)?;
                self.commit(update);
                Ok(())
            }
            Err(e) => {
                made.give_up(into);
                Err(e)
            }
        }
    }

    /// Copies the packets of one unit as it is to memory where they fit, and tells what the call
    /// changes.
    fn prepare_unit_placed<'a>(
        &'a self,
        mtu: usize,
        unit: &'a [u8],
        headroom: usize,
        to: &mut [u8],
        ends: &mut [usize],
    ) -> Result<(Placement, Update), PacketError> {
        let mut made: Vec<PacketParts<'a>> = Vec::new();
        let update = self.prepare_unit(mtu, unit, &mut made)?;
        Ok((place(&made, headroom, to, ends), update))
    }

    /// Copies the packets of [`packetize_unit`](PayloadPacketizer::packetize_unit) straight to memory
    /// of the caller, as [`packetize_to_memory`](PayloadPacketizer::packetize_to_memory) does those of
    /// a payload.
    pub fn packetize_unit_to_memory(
        &mut self,
        mtu: usize,
        unit: &[u8],
        headroom: usize,
        to: &mut [u8],
        ends: &mut [usize],
    ) -> Result<Placement, PacketError> {
        let (placement, update) = self.prepare_unit_placed(mtu, unit, headroom, to, ends)?;
        if let Placement::Placed(_) = placement {
            self.commit(update);
        }
        Ok(placement)
    }
}
