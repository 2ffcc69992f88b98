// Made from crates/h265_payload/src/shows.rt by tools/to-rust.

//! Packets of H.265 as what their depacketizer shows.

use crate::proved::h26x_core::PacketError;
use crate::proved::h26x_depacketizer::{PacketReader, Parts, Shows, check_lengths};
use crate::proved::h265_packets::H265Payload;
use crate::proved::h265_payload::codec::H265;
use crate::proved::h265_payload::show::{prepare, show};
use crate::proved::h265_payload::spare::Spare;

impl Shows<H265> for H265Payload {
    type Spare = Spare;

    fn new() -> Self {
        H265Payload::empty()
    }

    fn new_spare() -> Self::Spare {
        Spare::new()
    }

    fn try_clone(&self) -> Result<Self, PacketError> {
        self.try_clone()
    }

    #[inline(always)]
    fn read<'a>(codec: H265, packet: &'a [u8]) -> Result<Parts<'a>, PacketError> {
        codec.read(packet)
    }

    #[inline(always)]
    fn prepare(
        codec: H265,
        is_avc: bool,
        packet: &[u8],
        parts: Parts<'_>,
        run_len: Option<usize>,
        spare: &mut Self::Spare,
    ) -> Result<(), PacketError> {
        check_lengths(codec, is_avc, packet, parts, run_len)?;
        prepare(codec.has_donl, packet, parts, spare)?;
        Ok(())
    }

    #[inline(always)]
    fn show(&mut self, codec: H265, packet: &[u8], parts: Parts<'_>, spare: &mut Self::Spare) {
        show(codec.has_donl, packet, parts, self, spare);
    }
}
