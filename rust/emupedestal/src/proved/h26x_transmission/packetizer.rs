// Made from crates/h26x_transmission/src/packetizer.rt by tools/to-rust.

//! A packetizer of any codec, or a caller's own.

use crate::Codec;
use crate::H264Packetizer;
use crate::H265Packetizer;
use crate::H266Packetizer;
use crate::{EveryUnitError, PacketsSize, Packing};
use crate::{PacketError, Packetizer};
use alloc::{boxed::Box, vec::Vec};
use core::panic::UnwindSafe;

/// A packetizer of one of the codecs, or a caller's own in a box.
///
/// Every call goes to the packetizer that it holds.
#[derive(Debug)]
pub enum CodecPacketizer {
    /// Sends H.264 (RFC 6184).
    H264(H264Packetizer),
    /// Sends H.265 (RFC 7798).
    H265(H265Packetizer),
    /// Sends H.266 (RFC 9328).
    H266(H266Packetizer),
    /// A caller's own packetizer. Nothing is known of it but the laws of [`Packetizer`].
    Boxed(Box<dyn Packetizer + Send + Sync + UnwindSafe>),
}

impl CodecPacketizer {
    /// A packetizer of a codec (RFC 6184, RFC 7798, RFC 9328) for which nothing waits, without
    /// decoding order numbers, and with 1200 bytes as the largest packet size.
    #[inline]
    pub fn new(codec: Codec) -> Self {
        match codec {
            Codec::H264 => CodecPacketizer::H264(H264Packetizer::new()),
            Codec::H265 => CodecPacketizer::H265(H265Packetizer::new()),
            Codec::H266 => CodecPacketizer::H266(H266Packetizer::new()),
        }
    }

    /// Sets numbers up by `sprop-max-don-diff` of a session description, the greatest distance
    /// between decoding and sending order (RFC 7798, 7.1; RFC 9328, 7.2).
    ///
    /// Where it is over 0, units of H.265 and H.266 bear decoding order numbers from then on, which
    /// begin at 0, and sets that wait stay. None and 0 change nothing, and neither does any value
    /// for H.264 or a packetizer in a box. It takes no memory.
    #[inline]
    pub fn configure_for(&mut self, sprop_max_don_diff: Option<u32>) {
        if sprop_max_don_diff.unwrap_or(0) == 0 {
            return;
        }
        match self {
            CodecPacketizer::H265(it) => it.with_donl(true),
            CodecPacketizer::H266(it) => it.with_donl(true),
            CodecPacketizer::H264(_) | CodecPacketizer::Boxed(_) => {}
        }
    }

    /// The packets of one NAL unit as it is, without a start code and whatever its kind; the sets
    /// that wait stay. One in a box is given the unit as a payload.
    pub fn packetize_unit(&mut self, mtu: usize, unit: &[u8]) -> Result<Vec<Vec<u8>>, PacketError> {
        match self {
            CodecPacketizer::H264(it) => it.packetize_unit(mtu, unit),
            CodecPacketizer::H265(it) => it.packetize_unit(mtu, unit),
            CodecPacketizer::H266(it) => it.packetize_unit(mtu, unit),
            CodecPacketizer::Boxed(it) => it.packetize(mtu, unit),
        }
    }

    /// The packets of the NAL units of one access unit, each without its start code, none of which is
    /// left out, in order and as they are: those that fit one packet together
    /// (RFC 6184, 5.7.1; RFC 7798, 4.4.2; RFC 9328, 4.3.2), the others alone or in fragments. Sets that
    /// wait stay.
    ///
    /// The first unit that can't go is named, and nothing is sent then. Else `OutOfMemory` is the only
    /// error. Both leave everything. `None` of one in a box, whose trait has no such call: nothing is
    /// done.
    pub fn packetize_units<'a>(
        &mut self,
        packing: Packing,
        mtu: usize,
        units: &'a [&'a [u8]],
    ) -> Result<Option<Vec<Vec<u8>>>, EveryUnitError> {
        match self {
            CodecPacketizer::H264(it) => Ok(Some(it.packetize_units(packing, mtu, units)?)),
            CodecPacketizer::H265(it) => Ok(Some(it.packetize_units(packing, mtu, units)?)),
            CodecPacketizer::H266(it) => Ok(Some(it.packetize_units(packing, mtu, units)?)),
            CodecPacketizer::Boxed(_) => Ok(None),
        }
    }

    /// How many packets [`packetize_units_into`](CodecPacketizer::packetize_units_into) would make of
    /// units, and how many bytes they take with `headroom` bytes before each; `None` of one in a box.
    /// Nothing changes, and units are refused as there.
    pub fn units_size<'a>(
        &self,
        packing: Packing,
        mtu: usize,
        units: &'a [&'a [u8]],
        headroom: usize,
    ) -> Result<Option<PacketsSize>, EveryUnitError> {
        let size = match self {
            CodecPacketizer::H264(it) => it.units_size(packing, mtu, units, headroom)?,
            CodecPacketizer::H265(it) => it.units_size(packing, mtu, units, headroom)?,
            CodecPacketizer::H266(it) => it.units_size(packing, mtu, units, headroom)?,
            CodecPacketizer::Boxed(_) => return Ok(None),
        };
        Ok(Some(size))
    }
}

impl Packetizer for CodecPacketizer {
    /// The packets of a payload, in order, as the packetizer that it holds makes them.
    ///
    /// Of a codec: each is within the limit of the call, the lesser of `mtu` and for H.265 and
    /// H.266 the largest packet size. `OutOfMemory` is the only error, and leaves everything.
    #[inline]
    fn packetize(&mut self, mtu: usize, b: &[u8]) -> Result<Vec<Vec<u8>>, PacketError> {
        match self {
            CodecPacketizer::H264(it) => it.packetize(mtu, b),
            CodecPacketizer::H265(it) => it.packetize(mtu, b),
            CodecPacketizer::H266(it) => it.packetize(mtu, b),
            CodecPacketizer::Boxed(it) => it.packetize(mtu, b),
        }
    }

    /// Whether a packet bears the marker bit, as the packetizer that it holds says. Of a codec: the
    /// last packet of an access unit.
    #[inline]
    fn is_marker(&mut self, data: &[u8], previous: Option<&[u8]>, last: bool) -> bool {
        match self {
            CodecPacketizer::H264(it) => it.is_marker(data, previous, last),
            CodecPacketizer::H265(it) => it.is_marker(data, previous, last),
            CodecPacketizer::H266(it) => it.is_marker(data, previous, last),
            CodecPacketizer::Boxed(it) => it.is_marker(data, previous, last),
        }
    }

    /// Whether the marker bit marks the start of a talkspurt, as the packetizer that it holds says.
    /// It does so for no video codec.
    #[inline]
    fn marks_talkspurt(&self) -> bool {
        match self {
            CodecPacketizer::H264(it) => it.marks_talkspurt(),
            CodecPacketizer::H265(it) => it.marks_talkspurt(),
            CodecPacketizer::H266(it) => it.marks_talkspurt(),
            CodecPacketizer::Boxed(it) => it.marks_talkspurt(),
        }
    }

    /// Whether a receiver may ask for a lost packet again, as the packetizer that it holds says. Of
    /// a codec it may.
    #[inline]
    fn nackable(&self) -> bool {
        match self {
            CodecPacketizer::H264(it) => it.nackable(),
            CodecPacketizer::H265(it) => it.nackable(),
            CodecPacketizer::H266(it) => it.nackable(),
            CodecPacketizer::Boxed(it) => it.nackable(),
        }
    }
}
