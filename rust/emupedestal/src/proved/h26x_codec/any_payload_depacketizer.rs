// Made from crates/h26x_codec/src/any_payload_depacketizer.rt by tools/to-rust.

//! A depacketizer of one of the codecs, chosen when it is made, which shows no packet.

use crate::proved::h26x_codec::codec::Codec;
use crate::proved::h26x_core::{CodecExtra, Depacketizer, PacketError};
use crate::proved::h26x_depacketizer::{
    OpenRun, OpenText, PacketReader, RunDepacketizer, RunRule, UnitSink, UnitTest, bears_unit,
    first_unit_begun, out_size_hint, starts_run, take_in_text, take_packet,
};
use crate::proved::h26x_payload::{DonlFormat, PayloadFormat};
use crate::proved::h264_payload::H264;
use crate::proved::h265_payload::H265;
use crate::proved::h266_payload::H266;
use alloc::vec::Vec;
use core::mem;

/// A depacketizer of one of the codecs, chosen when it is made: what a `PayloadDepacketizer` of it
/// does. It shows no packet, and so copies none for that; where H.265 is to show its packets there is
/// [`AnyDepacketizer`](crate::proved::h26x_codec::AnyDepacketizer).
#[derive(Debug)]
pub struct AnyPayloadDepacketizer {
    codec: Codec,
    has_donl: bool,
    /// Whether units are written behind lengths of four bytes, as MP4 files have them (ISO/IEC
    /// 14496-15: `avc1`, `hvc1`, `vvc1`), and not behind start codes. False at first.
    pub is_avc: bool,
    run: OpenRun,
}

impl AnyPayloadDepacketizer {
    /// A depacketizer of a codec that reads packets without decoding order numbers, writes start
    /// codes and has no run open.
    pub fn new(codec: Codec) -> Self {
        AnyPayloadDepacketizer {
            codec,
            has_donl: false,
            is_avc: false,
            run: OpenRun::none(),
        }
    }

    /// Its codec.
    pub fn codec(&self) -> Codec {
        self.codec
    }

    /// The same depacketizer again, with its open run. With none it takes no memory.
    pub fn try_clone(&self) -> Result<Self, PacketError> {
        Ok(AnyPayloadDepacketizer {
            codec: self.codec,
            has_donl: self.has_donl,
            is_avc: self.is_avc,
            run: self.run.try_clone()?,
        })
    }

    /// Whether both are of one codec, and the same.
    pub fn is_same(&self, other: &AnyPayloadDepacketizer) -> bool {
        self.is_avc == other.is_avc
            && self.has_donl == other.has_donl
            && self.codec == other.codec
            && self.run == other.run
    }

    /// Sets whether packets bear decoding order numbers; those of H.264 bear none.
    pub fn with_donl(&mut self, has_donl: bool) {
        self.has_donl = match self.codec {
            Codec::H264 => false,
            Codec::H265 | Codec::H266 => has_donl,
        };
    }

    /// Takes a packet that this codec's reader reads.
    fn take_as<C: PacketReader, W: UnitSink>(
        &mut self,
        codec: C,
        packet: &[u8],
        out: &mut W,
        codec_extra: &mut CodecExtra,
    ) -> Result<(), PacketError> {
        let parts = codec.read(packet)?;
        let is_avc = self.is_avc;
        let run = &mut self.run;
        take_packet(codec, is_avc, packet, parts, run, out, codec_extra)
    }

    /// Takes a packet as `depacketize` does, and writes the units that it completes to a list of
    /// bytes or to memory of a caller. Where that has no room for them the error is `OutOfMemory`;
    /// a refusal leaves everything, the memory too. A fragment without a start before it is accepted
    /// and completes nothing, and it takes no memory.
    pub fn depacketize_into<W: UnitSink>(
        &mut self,
        packet: &[u8],
        out: &mut W,
        codec_extra: &mut CodecExtra,
    ) -> Result<(), PacketError> {
        let dons = self.has_donl;
        match self.codec {
            Codec::H264 => self.take_as(H264::new(), packet, out, codec_extra),
            Codec::H265 => self.take_as(H265::new().with_donl(dons), packet, out, codec_extra),
            Codec::H266 => self.take_as(H266::new().with_donl(dons), packet, out, codec_extra),
        }
    }

    /// Takes a packet that this codec's reader reads, where the run that is open stands in the text.
    #[inline(always)]
    fn take_as_in_text<C: PacketReader>(
        &self,
        codec: C,
        rule: RunRule,
        packet: &[u8],
        text: &mut OpenText,
        codec_extra: &mut CodecExtra,
    ) -> Result<(), PacketError> {
        let parts = codec.read(packet)?;
        take_in_text(codec, self.is_avc, rule, packet, parts, text, codec_extra)
    }
}

impl Depacketizer for AnyPayloadDepacketizer {
    /// The bytes of the packets, four more, and four for each whole 1200 of them; at most
    /// `usize::MAX`.
    fn out_size_hint(&self, packets_size: usize) -> Option<usize> {
        out_size_hint(packets_size)
    }

    /// Takes a packet, as a `PayloadDepacketizer` of its codec does. A refusal leaves everything; the
    /// errors are those of the codec's depacketizer.
    fn depacketize(
        &mut self,
        packet: &[u8],
        out: &mut Vec<u8>,
        codec_extra: &mut CodecExtra,
    ) -> Result<(), PacketError> {
        self.depacketize_into(packet, out, codec_extra)
    }

    /// Whether `packet` may be the first of an access unit, as its codec says.
    fn is_partition_head(&self, packet: &[u8]) -> bool {
        match self.codec {
            Codec::H264 => H264::new().may_begin(packet),
            Codec::H265 => H265::new().may_begin(packet),
            Codec::H266 => H266::new().may_begin(packet),
        }
    }

    /// Whether `packet` is the last of an access unit, as its codec says.
    fn is_partition_tail(&self, marker: bool, packet: &[u8]) -> bool {
        match self.codec {
            Codec::H264 => H264::new().is_last(marker, packet),
            Codec::H265 => H265::new().is_last(marker, packet),
            Codec::H266 => H266::new().is_last(marker, packet),
        }
    }
}

impl RunDepacketizer for AnyPayloadDepacketizer {
    fn is_avc(&self) -> bool {
        self.is_avc
    }

    fn run_len(&self) -> usize {
        self.run.len()
    }

    fn swap_run(&mut self, run: &mut OpenRun) {
        mem::swap(&mut self.run, run);
    }

    fn give_up_run(&mut self) {
        self.run.give_up();
    }

    fn take<W: UnitSink>(
        &mut self,
        packet: &[u8],
        out: &mut W,
        codec_extra: &mut CodecExtra,
    ) -> Result<(), PacketError> {
        self.depacketize_into(packet, out, codec_extra)
    }

    #[inline(always)]
    fn take_in_text(
        &mut self,
        rule: RunRule,
        packet: &[u8],
        text: &mut OpenText,
        codec_extra: &mut CodecExtra,
    ) -> Result<(), PacketError> {
        let dons = self.has_donl;
        match self.codec {
            Codec::H264 => self.take_as_in_text(H264::new(), rule, packet, text, codec_extra),
            Codec::H265 => {
                let codec = H265::new().with_donl(dons);
                self.take_as_in_text(codec, rule, packet, text, codec_extra)
            }
            Codec::H266 => {
                let codec = H266::new().with_donl(dons);
                self.take_as_in_text(codec, rule, packet, text, codec_extra)
            }
        }
    }

    fn starts_run(&self, packet: &[u8]) -> bool {
        let dons = self.has_donl;
        match self.codec {
            Codec::H264 => starts_run(H264::new(), packet),
            Codec::H265 => starts_run(H265::new().with_donl(dons), packet),
            Codec::H266 => starts_run(H266::new().with_donl(dons), packet),
        }
    }

    fn extra(&self, key: bool) -> CodecExtra {
        match self.codec {
            Codec::H264 => H264::new().extra(key),
            Codec::H265 => H265::new().extra(key),
            Codec::H266 => H266::new().extra(key),
        }
    }

    fn bears_unit<T: UnitTest>(&self, packet: &[u8], test: &T) -> bool {
        let dons = self.has_donl;
        match self.codec {
            Codec::H264 => bears_unit(H264::new(), packet, test),
            Codec::H265 => bears_unit(H265::new().with_donl(dons), packet, test),
            Codec::H266 => bears_unit(H266::new().with_donl(dons), packet, test),
        }
    }

    fn first_unit_begun(&self, packet: &[u8]) -> Option<[u8; 3]> {
        let dons = self.has_donl;
        match self.codec {
            Codec::H264 => first_unit_begun(H264::new(), packet),
            Codec::H265 => first_unit_begun(H265::new().with_donl(dons), packet),
            Codec::H266 => first_unit_begun(H266::new().with_donl(dons), packet),
        }
    }
}
