// Made from crates/h26x_codec/src/any_depacketizer.rt by tools/to-rust.

//! A depacketizer of one of the codecs, chosen when it is made.

use crate::proved::h26x_codec::codec::{Codec, with_held};
use crate::proved::h26x_core::{CodecExtra, Depacketizer, PacketError};
use crate::proved::h26x_depacketizer::{
    OpenRun, OpenText, RunDepacketizer, RunRule, UnitSink, UnitTest,
};
use crate::proved::h264_payload::H264Depacketizer;
use crate::proved::h265_packets::H265Payload;
use crate::proved::h265_payload::H265Depacketizer;
use crate::proved::h266_payload::H266Depacketizer;
use alloc::vec::Vec;

/// A depacketizer of one of the codecs, chosen when it is made. Every call goes to the one that it
/// holds.
#[derive(Debug)]
pub enum AnyDepacketizer {
    /// Receives H.264 (RFC 6184).
    H264(H264Depacketizer),
    /// Receives H.265 (RFC 7798).
    H265(H265Depacketizer),
    /// Receives H.266 (RFC 9328).
    H266(H266Depacketizer),
}

impl AnyDepacketizer {
    /// A depacketizer of a codec that reads packets without decoding order numbers, writes start
    /// codes and has no run open.
    pub fn new(codec: Codec) -> Self {
        match codec {
            Codec::H264 => AnyDepacketizer::H264(H264Depacketizer::new()),
            Codec::H265 => AnyDepacketizer::H265(H265Depacketizer::new()),
            Codec::H266 => AnyDepacketizer::H266(H266Depacketizer::new()),
        }
    }

    /// Its codec.
    pub fn codec(&self) -> Codec {
        match self {
            AnyDepacketizer::H264(_) => Codec::H264,
            AnyDepacketizer::H265(_) => Codec::H265,
            AnyDepacketizer::H266(_) => Codec::H266,
        }
    }

    /// The same depacketizer again, with its open run.
    pub fn try_clone(&self) -> Result<Self, PacketError> {
        match self {
            AnyDepacketizer::H264(it) => Ok(AnyDepacketizer::H264(it.try_clone()?)),
            AnyDepacketizer::H265(it) => Ok(AnyDepacketizer::H265(it.try_clone()?)),
            AnyDepacketizer::H266(it) => Ok(AnyDepacketizer::H266(it.try_clone()?)),
        }
    }

    /// Whether both are of one codec, and the same.
    pub fn is_same(&self, other: &AnyDepacketizer) -> bool {
        match (self, other) {
            (AnyDepacketizer::H264(a), AnyDepacketizer::H264(b)) => a == b,
            (AnyDepacketizer::H265(a), AnyDepacketizer::H265(b)) => a == b,
            (AnyDepacketizer::H266(a), AnyDepacketizer::H266(b)) => a == b,
            _ => false,
        }
    }

    /// The packet that was accepted last, where the codec shows it: H.265.
    pub fn shown(&self) -> Option<&H265Payload> {
        match self {
            AnyDepacketizer::H265(it) => Some(it.payload()),
            AnyDepacketizer::H264(_) | AnyDepacketizer::H266(_) => None,
        }
    }

    /// Whether it writes units behind lengths of four bytes, and not behind start codes.
    pub fn is_avc(&self) -> bool {
        with_held!(self, |it| it.is_avc)
    }

    /// Sets whether it writes units behind lengths or behind start codes.
    pub fn set_avc(&mut self, is_avc: bool) {
        with_held!(self, |it| it.is_avc = is_avc)
    }

    /// Sets whether packets bear decoding order numbers; that of H.264 stays as it is.
    pub fn with_donl(&mut self, has_donl: bool) {
        match self {
            AnyDepacketizer::H264(_) => {}
            AnyDepacketizer::H265(it) => it.with_donl(has_donl),
            AnyDepacketizer::H266(it) => it.with_donl(has_donl),
        }
    }

    /// Takes a packet as `depacketize` does, and writes the units that it completes to a list of
    /// bytes or to memory of a caller. Where that has no room for them the error is `OutOfMemory`;
    /// a refusal leaves everything, the memory too. A fragment without a start before it is accepted
    /// and completes nothing, and of H.264 and H.266 it takes no memory.
    #[inline]
    pub fn depacketize_into<W: UnitSink>(
        &mut self,
        packet: &[u8],
        out: &mut W,
        codec_extra: &mut CodecExtra,
    ) -> Result<(), PacketError> {
        with_held!(self, |it| it.depacketize_into(packet, out, codec_extra))
    }

    /// Takes a packet as `depacketize_into` does, and writes units in this form, whatever is set:
    /// behind lengths or behind start codes. It asks once which codec's it is.
    #[allow(dead_code, reason = "the C library has it")]
    #[inline(always)]
    pub fn depacketize_as<W: UnitSink>(
        &mut self,
        is_avc: bool,
        packet: &[u8],
        out: &mut W,
        codec_extra: &mut CodecExtra,
    ) -> Result<(), PacketError> {
        with_held!(self, |it| it.depacketize_as(
            is_avc,
            packet,
            out,
            codec_extra
        ))
    }
}

impl Depacketizer for AnyDepacketizer {
    /// As the depacketizer that it holds says.
    fn out_size_hint(&self, packets_size: usize) -> Option<usize> {
        with_held!(self, |it| it.out_size_hint(packets_size))
    }

    /// Takes a packet, as the depacketizer that it holds does. A refusal leaves everything; the errors
    /// are those of that depacketizer.
    fn depacketize(
        &mut self,
        packet: &[u8],
        out: &mut Vec<u8>,
        codec_extra: &mut CodecExtra,
    ) -> Result<(), PacketError> {
        self.depacketize_into(packet, out, codec_extra)
    }

    /// Whether `packet` may be the first of an access unit, as the depacketizer that it holds says.
    fn is_partition_head(&self, packet: &[u8]) -> bool {
        with_held!(self, |it| it.is_partition_head(packet))
    }

    /// Whether `packet` is the last of an access unit, as the depacketizer that it holds says.
    fn is_partition_tail(&self, marker: bool, packet: &[u8]) -> bool {
        with_held!(self, |it| it.is_partition_tail(marker, packet))
    }
}

impl RunDepacketizer for AnyDepacketizer {
    fn is_avc(&self) -> bool {
        with_held!(self, |depacketizer| depacketizer.is_avc)
    }

    fn run_len(&self) -> usize {
        with_held!(self, |it| it.run_len())
    }

    fn swap_run(&mut self, run: &mut OpenRun) {
        with_held!(self, |it| it.swap_run(run))
    }

    fn give_up_run(&mut self) {
        with_held!(self, |it| it.give_up_run())
    }

    #[inline]
    fn take<W: UnitSink>(
        &mut self,
        packet: &[u8],
        out: &mut W,
        codec_extra: &mut CodecExtra,
    ) -> Result<(), PacketError> {
        self.depacketize_into(packet, out, codec_extra)
    }

    #[inline]
    fn take_in_text(
        &mut self,
        rule: RunRule,
        packet: &[u8],
        text: &mut OpenText,
        codec_extra: &mut CodecExtra,
    ) -> Result<(), PacketError> {
        with_held!(self, |it| it.depacketize_in_text(
            rule,
            packet,
            text,
            codec_extra
        ))
    }

    fn starts_run(&self, packet: &[u8]) -> bool {
        with_held!(self, |it| it.starts_run(packet))
    }

    fn extra(&self, key: bool) -> CodecExtra {
        with_held!(self, |it| it.extra(key))
    }

    fn bears_unit<T: UnitTest>(&self, packet: &[u8], test: &T) -> bool {
        with_held!(self, |it| it.bears_unit(packet, test))
    }

    fn first_unit_begun(&self, packet: &[u8]) -> Option<[u8; 3]> {
        with_held!(self, |it| it.first_unit_begun(packet))
    }
}
