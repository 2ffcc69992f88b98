// Made from crates/h26x_depacketizer/src/run_depacketizer.rt by tools/to-rust.

//! What a receiver of packets with their sequence numbers asks of a depacketizer.

use crate::proved::h26x_core::{CodecExtra, Depacketizer, PacketError};
use crate::proved::h26x_depacketizer::depacketizer::PayloadDepacketizer;
use crate::proved::h26x_depacketizer::in_text::RunRule;
use crate::proved::h26x_depacketizer::look::{UnitTest, bears_unit, first_unit_begun};
use crate::proved::h26x_depacketizer::open_text::OpenText;
use crate::proved::h26x_depacketizer::reader::PacketReader;
use crate::proved::h26x_depacketizer::run::OpenRun;
use crate::proved::h26x_depacketizer::shows::Shows;
use crate::proved::h26x_depacketizer::sink::UnitSink;

/// A depacketizer whose open run may be measured, exchanged and given up: those of the codecs, and a
/// caller's own that implements this.
///
/// An implementation names its state, itself with another run, and itself once it has taken a packet.
pub trait RunDepacketizer: Depacketizer {
    /// Whether it writes units behind their lengths, in the place of start codes (AVC form).
    fn is_avc(&self) -> bool;

    /// How many bytes the open run holds; none where none is open.
    fn run_len(&self) -> usize;

    /// Exchanges the open run, or none, for another one. It takes no memory.
    fn swap_run(&mut self, run: &mut OpenRun);

    /// Gives up the open run, and gives its buffer back.
    fn give_up_run(&mut self);

    /// Takes a packet, as [`Depacketizer::depacketize`] does, and writes the units that it completes
    /// to a list of bytes or to memory of a caller.
    fn take<W: UnitSink>(
        &mut self,
        packet: &[u8],
        out: &mut W,
        codec_extra: &mut CodecExtra,
    ) -> Result<(), PacketError>;

    /// Takes a packet where the run that is open stands in the text that is written to, so that the
    /// data of its fragments are copied once. Its own run it neither uses nor changes. By the rule the
    /// packet goes on with the run of the text, or has it given up.
    fn take_in_text(
        &mut self,
        rule: RunRule,
        packet: &[u8],
        text: &mut OpenText,
        codec_extra: &mut CodecExtra,
    ) -> Result<(), PacketError>;

    /// Whether a packet is a fragment that starts, which gives up a run that is open.
    fn starts_run(&self, packet: &[u8]) -> bool;

    /// What it tells of units, with one of a key type among them or not.
    fn extra(&self, key: bool) -> CodecExtra;

    /// Whether it is so of a unit of which a packet bears something: of a fragment that doesn't start
    /// its unit by the header alone. None is borne by a packet that is refused. It takes no memory.
    fn bears_unit<T: UnitTest>(&self, packet: &[u8], test: &T) -> bool;

    /// The first three bytes of the first unit that a packet begins, if it begins one, zeros behind
    /// its end. It takes no memory.
    fn first_unit_begun(&self, packet: &[u8]) -> Option<[u8; 3]>;
}

/// Removes the open run, for a packet that is to be taken without it. Where none is open a
/// depacketizer keeps its buffer, for the next one.
pub fn remove_run<D: RunDepacketizer>(depacketizer: &mut D) -> OpenRun {
    let mut run = OpenRun::none();
    depacketizer.swap_run(&mut run);
    if !run.is_open() {
        depacketizer.swap_run(&mut run);
    }
    run
}

impl<C: PacketReader, S: Shows<C>> RunDepacketizer for PayloadDepacketizer<C, S> {
    fn is_avc(&self) -> bool {
        self.is_avc
    }

    fn run_len(&self) -> usize {
        self.run_len()
    }

    fn swap_run(&mut self, run: &mut OpenRun) {
        self.swap_run(run);
    }

    fn give_up_run(&mut self) {
        self.give_up_run();
    }

    #[inline]
    fn take<W: UnitSink>(
        &mut self,
        packet: &[u8],
        out: &mut W,
        codec_extra: &mut CodecExtra,
    ) -> Result<(), PacketError> {
        self.depacketize_into(packet, out, codec_extra)
    }

    #[inline]
    fn take_in_text(
        &mut self,
        rule: RunRule,
        packet: &[u8],
        text: &mut OpenText,
        codec_extra: &mut CodecExtra,
    ) -> Result<(), PacketError> {
        self.depacketize_in_text(rule, packet, text, codec_extra)
    }

    fn starts_run(&self, packet: &[u8]) -> bool {
        self.starts_run(packet)
    }

    fn extra(&self, key: bool) -> CodecExtra {
        self.codec().extra(key)
    }

    fn bears_unit<T: UnitTest>(&self, packet: &[u8], test: &T) -> bool {
        bears_unit(self.codec(), packet, test)
    }

    fn first_unit_begun(&self, packet: &[u8]) -> Option<[u8; 3]> {
        first_unit_begun(self.codec(), packet)
    }
}
