// Made from crates/h26x_depacketizer/src/shows.rt by tools/to-rust.

//! What a depacketizer shows of the packet that it accepted last.

use crate::proved::h26x_core::PacketError;
use crate::proved::h26x_depacketizer::parts::Parts;
use crate::proved::h26x_depacketizer::reader::PacketReader;
use core::fmt;

/// What a depacketizer shows of the packet that it accepted last: [`Nothing`], or a copy of it.
///
/// What a packet is shown by is got ready before its units are written, so that a refusal leaves
/// everything; showing it can't fail then.
pub(crate) trait Shows<C: PacketReader>: Sized + fmt::Debug + Eq {
    /// Memory that the next packet is shown by.
    type Spare: fmt::Debug;

    /// What is shown before any packet.
    fn new() -> Self;

    /// No memory.
    fn new_spare() -> Self::Spare;

    /// The same again.
    fn try_clone(&self) -> Result<Self, PacketError>;

    /// Reads a packet, as its codec does.
    fn read<'a>(codec: C, packet: &'a [u8]) -> Result<Parts<'a>, PacketError>;

    /// Gets ready all that a packet is shown by. Where that takes memory, a packet that completes a
    /// unit too long for its length is refused before.
    fn prepare(
        codec: C,
        is_avc: bool,
        packet: &[u8],
        parts: Parts<'_>,
        run_len: Option<usize>,
        spare: &mut Self::Spare,
    ) -> Result<(), PacketError>;

    /// Shows a packet for which all is ready.
    fn show(&mut self, codec: C, packet: &[u8], parts: Parts<'_>, spare: &mut Self::Spare);
}

/// Shows no packet.
#[derive(Debug, Clone, Copy, PartialEq, Eq)]
pub struct Nothing;

impl<C: PacketReader> Shows<C> for Nothing {
    type Spare = Nothing;

    fn new() -> Self {
        Nothing
    }

    fn new_spare() -> Self::Spare {
        Nothing
    }

    fn try_clone(&self) -> Result<Self, PacketError> {
        Ok(Nothing)
    }

    #[inline(always)]
    fn read<'a>(codec: C, packet: &'a [u8]) -> Result<Parts<'a>, PacketError> {
        codec.read(packet)
    }

    #[inline(always)]
    fn prepare(
        _codec: C,
        _is_avc: bool,
        _packet: &[u8],
        _parts: Parts<'_>,
        _run_len: Option<usize>,
        _spare: &mut Self::Spare,
    ) -> Result<(), PacketError> {
        Ok(())
    }

    #[inline(always)]
    fn show(&mut self, _codec: C, _packet: &[u8], _parts: Parts<'_>, _spare: &mut Self::Spare) {}
}
