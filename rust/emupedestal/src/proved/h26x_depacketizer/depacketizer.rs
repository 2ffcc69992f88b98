// Made from crates/h26x_depacketizer/src/depacketizer.rt by tools/to-rust.

//! NAL units from packets, for every codec.

use crate::proved::h26x_core::{CodecExtra, Depacketizer, PacketError};
use crate::proved::h26x_depacketizer::extra::out_size_hint;
use crate::proved::h26x_depacketizer::in_text::{RunRule, take_in_text};
use crate::proved::h26x_depacketizer::open_text::OpenText;
use crate::proved::h26x_depacketizer::reader::{PacketReader, starts_run};
use crate::proved::h26x_depacketizer::run::OpenRun;
use crate::proved::h26x_depacketizer::shows::{Nothing, Shows};
use crate::proved::h26x_depacketizer::sink::UnitSink;
use crate::proved::h26x_depacketizer::take::take_packet;
use crate::proved::h26x_payload::DonlFormat;
use alloc::vec::Vec;
use core::mem;

/// Writes the units of packets (RFC 6184, 5 and 7; RFC 7798, 4.4 and 6; RFC 9328, 4.3 and 6), each
/// behind a start code, or behind its length where `is_avc` is set, and shows the packet that it
/// accepted last, or nothing.
///
/// It keeps the data of the fragments since the latest start, until an end completes their unit.
#[derive(Debug)]
pub struct PayloadDepacketizer<C: PacketReader, S: Shows<C> = Nothing> {
    codec: C,
    /// Whether units are written behind lengths of four bytes, as MP4 files have them (ISO/IEC
    /// 14496-15: `avc1`, `hvc1`, `vvc1`), and not behind start codes. False at first.
    pub is_avc: bool,
    run: OpenRun,
    payload: S,
    /// What the next packet is shown by goes here first, and changes places with what is shown when
    /// nothing can fail any more.
    spare: S::Spare,
}

impl<C: PacketReader, S: Shows<C>> PayloadDepacketizer<C, S> {
    /// A depacketizer with the setting of a new one, which writes start codes, has no run open and
    /// shows no packet yet.
    pub fn new() -> Self {
        PayloadDepacketizer::with_codec(C::new())
    }

    /// A depacketizer of this setting, which writes start codes, has no run open and shows no packet
    /// yet.
    pub fn with_codec(codec: C) -> Self {
        PayloadDepacketizer {
            codec,
            is_avc: false,
            run: OpenRun::none(),
            payload: S::new(),
            spare: S::new_spare(),
        }
    }

    /// How many bytes the open run holds; none where none is open.
    pub fn run_len(&self) -> usize {
        self.run.len()
    }

    /// Exchanges the open run, or none, for another one. It takes no memory.
    pub fn swap_run(&mut self, run: &mut OpenRun) {
        mem::swap(&mut self.run, run);
    }

    /// Gives up the open run, if there is one, and gives its buffer back, and the memory that is kept
    /// for what `payload` will show. It takes no memory.
    ///
    /// A run grows by every fragment until one ends it: a caller that will not hold so much asks
    /// `run_len` and calls this. Fragments that follow without a start are accepted and complete
    /// nothing. A run that ends leaves its buffer for later ones, if that has 2^20 bytes at most.
    pub fn give_up_run(&mut self) {
        self.run.give_up();
        self.spare = S::new_spare();
    }

    /// The packet that was accepted last, as it is shown; before any, what a new one shows.
    pub fn payload(&self) -> &S {
        &self.payload
    }

    /// The same depacketizer again, with its setting, its open run and what it shows. `OutOfMemory` is
    /// its only error; with no run open, and nothing shown, it takes no memory.
    pub fn try_clone(&self) -> Result<Self, PacketError> {
        Ok(PayloadDepacketizer {
            codec: self.codec,
            is_avc: self.is_avc,
            run: self.run.try_clone()?,
            payload: self.payload.try_clone()?,
            spare: S::new_spare(),
        })
    }
}

impl<C: PacketReader, S: Shows<C>> PayloadDepacketizer<C, S> {
    /// Takes a packet as `depacketize` does, and writes the units that it completes to a list of
    /// bytes or to memory of a caller. Where that has no room for them the error is `OutOfMemory`;
    /// a refusal leaves everything, the memory too.
    #[inline]
    pub fn depacketize_into<W: UnitSink>(
        &mut self,
        packet: &[u8],
        out: &mut W,
        codec_extra: &mut CodecExtra,
    ) -> Result<(), PacketError> {
        let (codec, is_avc) = (self.codec, self.is_avc);
        let parts = S::read(codec, packet)?;
        let run_len = self.run.open_len();
        S::prepare(codec, is_avc, packet, parts, run_len, &mut self.spare)?;
        let run = &mut self.run;
        take_packet(codec, is_avc, packet, parts, run, out, codec_extra)?;
        self.payload.show(codec, packet, parts, &mut self.spare);
        Ok(())
    }

    /// Takes a packet as `depacketize_into` does, and writes units in this form, whatever is set:
    /// behind lengths or behind start codes. Code that names the form has no branch on it.
    #[inline(always)]
    pub fn depacketize_as<W: UnitSink>(
        &mut self,
        is_avc: bool,
        packet: &[u8],
        out: &mut W,
        codec_extra: &mut CodecExtra,
    ) -> Result<(), PacketError> {
        let codec = self.codec;
        let parts = S::read(codec, packet)?;
        let open_len = self.run.open_len();
        S::prepare(codec, is_avc, packet, parts, open_len, &mut self.spare)?;
        let run = &mut self.run;
        take_packet(codec, is_avc, packet, parts, run, out, codec_extra)?;
        self.payload.show(codec, packet, parts, &mut self.spare);
        Ok(())
    }

    /// Takes a packet as `depacketize_into` does, where the run that is open stands in the text that
    /// is written to, and not here: the data of its fragments are copied once. By the rule the packet
    /// goes on with that run, or has it given up. A refusal leaves everything.
    #[inline]
    pub fn depacketize_in_text(
        &mut self,
        rule: RunRule,
        packet: &[u8],
        text: &mut OpenText,
        codec_extra: &mut CodecExtra,
    ) -> Result<(), PacketError> {
        let (codec, is_avc, spare) = (self.codec, self.is_avc, &mut self.spare);
        let run_len = text.met_run_len(rule.is_next);
        let parts = S::read(codec, packet)?;
        S::prepare(codec, is_avc, packet, parts, run_len, spare)?;
        take_in_text(codec, is_avc, rule, packet, parts, text, codec_extra)?;
        self.payload.show(codec, packet, parts, &mut self.spare);
        Ok(())
    }

    /// Its codec's setting.
    #[inline]
    pub fn codec(&self) -> C {
        self.codec
    }

    /// Whether a packet is a fragment that starts, which gives up a run that is open.
    pub fn starts_run(&self, packet: &[u8]) -> bool {
        starts_run(self.codec, packet)
    }
}

impl<C: PacketReader + DonlFormat, S: Shows<C>> PayloadDepacketizer<C, S> {
    /// Sets whether packets bear decoding order numbers (RFC 7798, 4.4; RFC 9328, 4.3). An open run
    /// stays open, and what `payload` shows stays.
    pub fn with_donl(&mut self, value: bool) {
        self.codec = self.codec.with_donl(value);
    }
}

impl<C: PacketReader + Eq, S: Shows<C>> PartialEq for PayloadDepacketizer<C, S> {
    fn eq(&self, other: &Self) -> bool {
        self.codec == other.codec
            && self.is_avc == other.is_avc
            && self.run == other.run
            && self.payload == other.payload
    }
}

impl<C: PacketReader + Eq, S: Shows<C>> Eq for PayloadDepacketizer<C, S> {}

impl<C: PacketReader, S: Shows<C>> Depacketizer for PayloadDepacketizer<C, S> {
    /// The bytes of the packets, four more, and four for each whole 1200 of them; at most
    /// `usize::MAX`.
    fn out_size_hint(&self, packets_size: usize) -> Option<usize> {
        out_size_hint(packets_size)
    }

    /// Appends the units that `packet` completes to `out`, each behind `00 00 00 01`, or where
    /// `is_avc` is set behind its length in four bytes, and without decoding order numbers.
    /// `codec_extra` then tells whether one of them, or one told of before, is of a keyframe; what
    /// another codec told is replaced. A packet that completes none leaves it. `payload` shows the
    /// packet from then on, where packets are shown.
    ///
    /// A start of fragments gives up a unit that was open, and a fragment without a start before it
    /// is accepted and completes nothing; where no packet is shown it takes no memory. That fragments
    /// between were lost is not noticed here: their unit is written without their data.
    /// `h26x_receiver` notices it, by the sequence numbers of packets.
    ///
    /// The codec says which packets are refused; behind lengths a unit over `u32::MAX` bytes is too
    /// (`AvcUnitTooLong`); else memory may lack. A refusal leaves `out`, `codec_extra`, the open unit
    /// and `payload`.
    fn depacketize(
        &mut self,
        packet: &[u8],
        out: &mut Vec<u8>,
        codec_extra: &mut CodecExtra,
    ) -> Result<(), PacketError> {
        self.depacketize_into(packet, out, codec_extra)
    }

    /// Whether `packet` may be the first of an access unit, as its codec says.
    fn is_partition_head(&self, packet: &[u8]) -> bool {
        self.codec.may_begin(packet)
    }

    /// Whether `packet` is the last of an access unit, as its codec says.
    fn is_partition_tail(&self, marker: bool, packet: &[u8]) -> bool {
        self.codec.is_last(marker, packet)
    }
}
