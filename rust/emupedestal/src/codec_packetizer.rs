//! A packetizer of any codec, or a caller's own: what isn't proved of it, since its calls go to one of a codec.

use crate::{Codec, CodecPacketizer, EveryUnitError, PacketError, Packets, PacketsSize, Packing};
#[cfg(doc)]
use crate::{H264Packetizer, H265Packetizer, Packetizer};
use alloc::vec::Vec;

/// What a call to the packetizer of a codec answers; `None` of one in a box, whose trait has no such call.
macro_rules! unless_boxed {
    ($packetizer:expr, $it:ident => $call:expr) => {
        match $packetizer {
            CodecPacketizer::H264($it) => $call.map(Some),
            CodecPacketizer::H265($it) => $call.map(Some),
            CodecPacketizer::H266($it) => $call.map(Some),
            CodecPacketizer::Boxed(_) => Ok(None),
        }
    };
}

impl CodecPacketizer {
    /// Turns decoding order numbers of H.265 and H.266 on, from 0, or off, as
    /// [`H265Packetizer::with_donl`] tells. For H.264 and a packetizer in a box it changes nothing.
    ///
    /// ```
    /// use emupedestal::{Codec, CodecPacketizer, Packetizer};
    ///
    /// let mut packetizer = CodecPacketizer::new(Codec::H265);
    /// packetizer.with_donl(true); // or `configure_for(Some(1))`, by `sprop-max-don-diff=1`
    /// let packets = packetizer.packetize(1200, &[0, 0, 1, 0x26, 0x01, 0xaf])?;
    /// assert_eq!(packets, [[0x26, 0x01, 0x00, 0x00, 0xaf]]);
    /// # Ok::<(), emupedestal::PacketError>(())
    /// ```
    pub fn with_donl(&mut self, has_donl: bool) {
        match self {
            CodecPacketizer::H265(it) => it.with_donl(has_donl),
            CodecPacketizer::H266(it) => it.with_donl(has_donl),
            CodecPacketizer::H264(_) | CodecPacketizer::Boxed(_) => {}
        }
    }

    /// Sets the largest packet size of H.265 and H.266, as
    /// [`H265Packetizer::with_max_packet_size`] tells. For H.264 and a packetizer in a box it changes
    /// nothing.
    ///
    /// # Panics
    ///
    /// Of H.265 and H.266, where `n` is under 4: no fragment has room for data then.
    pub fn with_max_packet_size(&mut self, n: u16) {
        match self {
            CodecPacketizer::H265(it) => it.with_max_packet_size(n),
            CodecPacketizer::H266(it) => it.with_max_packet_size(n),
            CodecPacketizer::H264(_) | CodecPacketizer::Boxed(_) => {}
        }
    }

    /// Sets whether parameter sets of H.265 that go in one packet have the header that RFC 7798, 4.4.2
    /// asks for, as [`H265Packetizer::with_lowest_header`] tells. Those of H.266 have theirs in any case,
    /// and for H.264 and a packetizer in a box it changes nothing.
    pub fn with_lowest_header(&mut self, is_lowest: bool) {
        if let CodecPacketizer::H265(it) = self {
            it.with_lowest_header(is_lowest);
        }
    }

    /// The RTP payloads of `b` as [`Packetizer::packetize`] makes them, in the place of those in
    /// `packets`, whose memory is used again. A refusal leaves `packets`.
    ///
    /// One in a box makes its packets first, and they are copied in.
    pub fn packetize_into(
        &mut self,
        mtu: usize,
        b: &[u8],
        packets: &mut Packets,
    ) -> Result<(), PacketError> {
        match self {
            CodecPacketizer::H264(it) => it.packetize_into(mtu, b, packets),
            CodecPacketizer::H265(it) => it.packetize_into(mtu, b, packets),
            CodecPacketizer::H266(it) => it.packetize_into(mtu, b, packets),
            CodecPacketizer::Boxed(it) => {
                packets.replace(&it.packetize(mtu, b)?);
                Ok(())
            }
        }
    }

    /// How many packets [`packetize_into`](Self::packetize_into) would make of `b`, and how many bytes
    /// they take with `headroom` bytes before each; `None` of one in a box, which has to make them for
    /// that. Nothing changes. `OutOfMemory` is the only error.
    pub fn packets_size(
        &self,
        mtu: usize,
        b: &[u8],
        headroom: usize,
    ) -> Result<Option<PacketsSize>, PacketError> {
        unless_boxed!(self, it => it.packets_size(mtu, b, headroom))
    }

    /// The packets of [`packetize_unit`](Self::packetize_unit) in the place of those in `packets`, as
    /// [`packetize_into`](Self::packetize_into) has it.
    pub fn packetize_unit_into(
        &mut self,
        mtu: usize,
        unit: &[u8],
        packets: &mut Packets,
    ) -> Result<(), PacketError> {
        match self {
            CodecPacketizer::H264(it) => it.packetize_unit_into(mtu, unit, packets),
            CodecPacketizer::H265(it) => it.packetize_unit_into(mtu, unit, packets),
            CodecPacketizer::H266(it) => it.packetize_unit_into(mtu, unit, packets),
            CodecPacketizer::Boxed(it) => {
                packets.replace(&it.packetize(mtu, unit)?);
                Ok(())
            }
        }
    }

    /// The packets of [`packetize_units`](Self::packetize_units) in the place of those in `packets`, as
    /// [`packetize_into`](Self::packetize_into) has it. Of one in a box `packets` has none then.
    pub fn packetize_units_into(
        &mut self,
        packing: Packing,
        mtu: usize,
        units: &[&[u8]],
        packets: &mut Packets,
    ) -> Result<Option<()>, EveryUnitError> {
        if let CodecPacketizer::Boxed(_) = self {
            packets.take(0);
        }
        unless_boxed!(self, it => it.packetize_units_into(packing, mtu, units, packets))
    }

    /// Sets whether the calls that take an access unit send delimiters and filler data, as
    /// [`H264Packetizer::with_delimiters`] tells. For a packetizer in a box it changes nothing.
    pub fn with_delimiters(&mut self, delimiters: bool) {
        match self {
            CodecPacketizer::H264(it) => it.with_delimiters(delimiters),
            CodecPacketizer::H265(it) => it.with_delimiters(delimiters),
            CodecPacketizer::H266(it) => it.with_delimiters(delimiters),
            CodecPacketizer::Boxed(_) => {}
        }
    }

    /// The RTP payloads of the units of one access unit in Annex B form, as [`H264Packetizer::packetize_access_unit`] makes
    /// and refuses them; `None` of one in a box: nothing is done.
    pub fn packetize_access_unit(
        &mut self,
        packing: Packing,
        mtu: usize,
        access_unit: &[u8],
    ) -> Result<Option<Vec<Vec<u8>>>, EveryUnitError> {
        unless_boxed!(self, it => it.packetize_access_unit(packing, mtu, access_unit))
    }

    /// The packets of [`packetize_access_unit`](Self::packetize_access_unit) in the place of those in
    /// `packets`, as [`packetize_units_into`](Self::packetize_units_into) has it.
    pub fn packetize_access_unit_into(
        &mut self,
        packing: Packing,
        mtu: usize,
        access_unit: &[u8],
        packets: &mut Packets,
    ) -> Result<Option<()>, EveryUnitError> {
        if let CodecPacketizer::Boxed(_) = self {
            packets.take(0);
        }
        unless_boxed!(self, it => it.packetize_access_unit_into(packing, mtu, access_unit, packets))
    }

    /// How many packets [`packetize_access_unit_into`](Self::packetize_access_unit_into) would make of
    /// an access unit, and how many bytes they take, as [`H264Packetizer::access_unit_size`] says it;
    /// `None` of one in a box.
    pub fn access_unit_size(
        &self,
        packing: Packing,
        mtu: usize,
        access_unit: &[u8],
        headroom: usize,
    ) -> Result<Option<PacketsSize>, EveryUnitError> {
        unless_boxed!(self, it => it.access_unit_size(packing, mtu, access_unit, headroom))
    }
}

/// As [`CodecPacketizer::new`].
impl From<Codec> for CodecPacketizer {
    fn from(codec: Codec) -> Self {
        CodecPacketizer::new(codec)
    }
}
