// Made from crates/h26x_codec/src/any_packetizer.rt by tools/to-rust.

//! A packetizer of one of the codecs, chosen when it is made.

use crate::proved::h26x_codec::codec::{Codec, with_held};
use crate::proved::h26x_core::PacketError;
use crate::proved::h26x_packetizer::{
    EveryUnitError, PacketBuffer, PacketsSize, Packing, Placement,
};
use crate::proved::h264_payload::H264Packetizer;
use crate::proved::h265_payload::H265Packetizer;
use crate::proved::h266_payload::H266Packetizer;

/// A packetizer of one of the codecs, chosen when it is made, which may go from thread to thread.
/// Every call goes to the one that it holds.
pub enum AnyPacketizer {
    /// Sends H.264 (RFC 6184).
    H264(H264Packetizer),
    /// Sends H.265 (RFC 7798).
    H265(H265Packetizer),
    /// Sends H.266 (RFC 9328).
    H266(H266Packetizer),
}

impl AnyPacketizer {
    /// A packetizer for which nothing waits, with numbers where its codec has them.
    pub fn new(codec: Codec, has_donl: bool) -> Self {
        let mut it = match codec {
            Codec::H264 => AnyPacketizer::H264(H264Packetizer::new()),
            Codec::H265 => AnyPacketizer::H265(H265Packetizer::new()),
            Codec::H266 => AnyPacketizer::H266(H266Packetizer::new()),
        };
        it.with_donl(has_donl);
        it
    }

    /// The same packetizer again.
    pub fn try_clone(&self) -> Result<Self, PacketError> {
        match self {
            AnyPacketizer::H264(it) => Ok(AnyPacketizer::H264(it.try_clone()?)),
            AnyPacketizer::H265(it) => Ok(AnyPacketizer::H265(it.try_clone()?)),
            AnyPacketizer::H266(it) => Ok(AnyPacketizer::H266(it.try_clone()?)),
        }
    }

    /// Its codec.
    pub fn codec(&self) -> Codec {
        match self {
            AnyPacketizer::H264(_) => Codec::H264,
            AnyPacketizer::H265(_) => Codec::H265,
            AnyPacketizer::H266(_) => Codec::H266,
        }
    }

    /// Turns numbers on, from 0, or off; that of H.264 stays as it is.
    pub fn with_donl(&mut self, has_donl: bool) {
        match self {
            AnyPacketizer::H264(_) => {}
            AnyPacketizer::H265(it) => it.with_donl(has_donl),
            AnyPacketizer::H266(it) => it.with_donl(has_donl),
        }
    }

    /// Sets whether parameter sets that share a packet of H.265 have the header of their own, or that
    /// of the unit behind them (RFC 7798, 4.4.2); every other codec's stay as they are.
    pub fn with_lowest_header(&mut self, lowest_header: bool) {
        match self {
            AnyPacketizer::H265(it) => it.with_lowest_header(lowest_header),
            AnyPacketizer::H264(_) | AnyPacketizer::H266(_) => {}
        }
    }

    /// Sets the largest packet size, in bytes; that of H.264 stays as it is.
    ///
    /// # Panics
    ///
    /// Unless `4 <= bytes`.
    pub fn with_max_packet_size(&mut self, bytes: u16) {
        assert!(4 <= bytes);
        match self {
            AnyPacketizer::H264(_) => {}
            AnyPacketizer::H265(it) => it.with_max_packet_size(bytes),
            AnyPacketizer::H266(it) => it.with_max_packet_size(bytes),
        }
    }

    /// Appends the packets of a payload to a buffer; a refusal leaves those that stood there.
    pub fn packetize_into(
        &mut self,
        mtu: usize,
        payload: &[u8],
        into: &mut PacketBuffer,
    ) -> Result<(), PacketError> {
        with_held!(self, |it| it.packetize_into(mtu, payload, into))
    }

    /// Appends the packets of one unit as it is; a refusal leaves those that stood in the buffer.
    pub fn packetize_unit_into(
        &mut self,
        mtu: usize,
        unit: &[u8],
        into: &mut PacketBuffer,
    ) -> Result<(), PacketError> {
        with_held!(self, |it| it.packetize_unit_into(mtu, unit, into))
    }

    /// Appends the packets of units to a buffer; a refusal leaves those that stood there.
    pub fn packetize_units_into<'a>(
        &mut self,
        packing: Packing,
        mtu: usize,
        units: &'a [&'a [u8]],
        into: &mut PacketBuffer,
    ) -> Result<(), EveryUnitError> {
        with_held!(self, |it| it
            .packetize_units_into(packing, mtu, units, into))
    }

    /// How much memory the packets of a payload take, each behind so many bytes. Nothing changes.
    pub fn packets_size(
        &self,
        mtu: usize,
        payload: &[u8],
        headroom: usize,
    ) -> Result<PacketsSize, PacketError> {
        with_held!(self, |it| it.packets_size(mtu, payload, headroom))
    }

    /// How much memory the packets of units take, each behind so many bytes. Nothing changes, and the
    /// first unit that can't go is named.
    pub fn units_size<'a>(
        &self,
        packing: Packing,
        mtu: usize,
        units: &'a [&'a [u8]],
        headroom: usize,
    ) -> Result<PacketsSize, EveryUnitError> {
        with_held!(self, |it| it.units_size(packing, mtu, units, headroom))
    }

    /// Copies the packets of a payload straight to memory where they fit; else nothing is done.
    pub fn packetize_to_memory(
        &mut self,
        mtu: usize,
        payload: &[u8],
        headroom: usize,
        to: &mut [u8],
        ends: &mut [usize],
    ) -> Result<Placement, PacketError> {
        with_held!(self, |it| it
            .packetize_to_memory(mtu, payload, headroom, to, ends))
    }

    /// Copies the packets of one unit as it is straight to memory where they fit; else nothing is
    /// done.
    pub fn packetize_unit_to_memory(
        &mut self,
        mtu: usize,
        unit: &[u8],
        headroom: usize,
        to: &mut [u8],
        ends: &mut [usize],
    ) -> Result<Placement, PacketError> {
        with_held!(self, |it| it
            .packetize_unit_to_memory(mtu, unit, headroom, to, ends))
    }

    /// Copies the packets of units straight to memory where they fit; else nothing is done.
    pub fn packetize_units_to_memory<'a>(
        &mut self,
        packing: Packing,
        mtu: usize,
        units: &'a [&'a [u8]],
        headroom: usize,
        to: &mut [u8],
        ends: &mut [usize],
    ) -> Result<Placement, EveryUnitError> {
        with_held!(self, |it| it
            .packetize_units_to_memory(packing, mtu, units, headroom, to, ends))
    }
}
