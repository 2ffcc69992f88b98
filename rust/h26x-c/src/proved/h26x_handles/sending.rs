// Made from crates/h26x_handles/src/sending.rt by tools/to-rust.

//! A packetizer, and the packets of its last call.

use crate::proved::h26x_codec::{AnyPacketizer, Codec};
use crate::proved::h26x_codes::copy::{bytes_from, copy_packets};
use crate::proved::h26x_core::PacketError;
use crate::proved::h26x_handles::settings::SendingSettings;
use crate::proved::h26x_packetizer::{PacketBuffer, Placement};
use core::mem;

/// A packetizer of a codec, the packets of its last call, and its settings.
pub struct SendingEndpoint {
    /// The packetizer.
    pub packetizer: AnyPacketizer,
    pub(crate) settings: SendingSettings,
    pub(crate) packets: PacketBuffer,
    // Where a call writes: the packets of before stay until it is carried out.
    pub(crate) spare: PacketBuffer,
}

impl SendingEndpoint {
    /// A packetizer for which nothing waits, and no packets.
    pub fn new(codec: Codec, has_donl: bool) -> Self {
        SendingEndpoint {
            packetizer: AnyPacketizer::new(codec, has_donl),
            settings: SendingSettings::new(),
            packets: PacketBuffer::new(0),
            spare: PacketBuffer::new(0),
        }
    }

    /// The same packetizer again, without packets.
    pub fn try_clone(&self) -> Result<Self, PacketError> {
        Ok(SendingEndpoint {
            packetizer: self.packetizer.try_clone()?,
            settings: self.settings,
            packets: PacketBuffer::new(0),
            spare: PacketBuffer::new(0),
        })
    }

    /// Turns numbers on, from 0, or off; that of H.264 stays as it is.
    pub fn with_donl(&mut self, has_donl: bool) {
        self.packetizer.with_donl(has_donl);
        self.packetizer
            .with_lowest_header(self.settings.lowest_header);
    }

    /// Sets whether parameter sets that share a packet of H.265 have the header of their own (RFC 7798,
    /// 4.4.2).
    pub fn with_lowest_header(&mut self, lowest_header: bool) {
        self.packetizer.with_lowest_header(lowest_header);
        self.settings.lowest_header = lowest_header;
    }

    /// Sets the largest packet size, in bytes; that of H.264 stays as it is.
    ///
    /// # Panics
    ///
    /// Unless `4 <= bytes`.
    pub fn with_max_packet_size(&mut self, bytes: u16) {
        assert!(4 <= bytes);
        self.packetizer.with_max_packet_size(bytes);
    }

    /// Its settings.
    pub fn settings(&self) -> SendingSettings {
        self.settings
    }

    /// Sets them.
    pub(crate) fn set(&mut self, settings: SendingSettings) {
        self.settings = settings;
    }

    /// Makes the packets of a payload, which take the place of the last call's.
    pub fn packetize(&mut self, mtu: usize, payload: &[u8]) -> Result<(), PacketError> {
        self.spare.clear();
        self.packetizer
            .packetize_into(mtu, payload, &mut self.spare)?;
        mem::swap(&mut self.packets, &mut self.spare);
        Ok(())
    }

    /// Makes the packets of one unit as it is, which take the place of the last call's.
    pub fn packetize_unit(&mut self, mtu: usize, unit: &[u8]) -> Result<(), PacketError> {
        self.spare.clear();
        self.packetizer
            .packetize_unit_into(mtu, unit, &mut self.spare)?;
        mem::swap(&mut self.packets, &mut self.spare);
        Ok(())
    }

    /// Copies the packets of a payload straight to memory where they fit; else nothing is done.
    pub fn packetize_to_memory(
        &mut self,
        mtu: usize,
        payload: &[u8],
        headroom: usize,
        to: &mut [u8],
        ends: &mut [usize],
    ) -> Result<Placement, PacketError> {
        self.packetizer
            .packetize_to_memory(mtu, payload, headroom, to, ends)
    }

    /// Copies the packets of one unit as it is straight to memory where they fit; else nothing is
    /// done.
    pub fn packetize_unit_to_memory(
        &mut self,
        mtu: usize,
        unit: &[u8],
        headroom: usize,
        to: &mut [u8],
        ends: &mut [usize],
    ) -> Result<Placement, PacketError> {
        self.packetizer
            .packetize_unit_to_memory(mtu, unit, headroom, to, ends)
    }

    /// How many packets there are.
    pub fn count(&self) -> usize {
        self.packets.len()
    }

    /// How many bytes the packets are together.
    pub fn bytes_len(&self) -> usize {
        bytes_from(&self.packets, 0).len()
    }

    /// A packet; past the last an empty one.
    pub fn packet(&self, i: usize) -> &[u8] {
        if i < self.packets.len() {
            self.packets.packet(i)
        } else {
            &[]
        }
    }

    /// Copies packets from a first one on to the front of a buffer, as many as there is room for,
    /// and writes where each ends; how many they are.
    pub fn copy_packets(&self, first: usize, to: &mut [u8], ends: &mut [usize]) -> usize {
        copy_packets(&self.packets, first, to, ends)
    }
}
