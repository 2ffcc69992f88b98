// Made from crates/h26x_handles/src/receiving.rt by tools/to-rust.

//! A depacketizer, and what its last accepted packet completed and had no room for.

use crate::proved::h26x_codec::{AnyDepacketizer, Codec};
use crate::proved::h26x_codes::copy::put_or_keep;
use crate::proved::h26x_core::{CodecExtra, PacketError};
use crate::proved::h26x_depacketizer::{MemorySink, UnitSink};
use alloc::vec::Vec;
use core::mem::MaybeUninit;

/// A depacketizer of a codec, and what its last accepted packet completed and had no room for.
pub struct ReceivingEndpoint {
    /// The depacketizer.
    pub depacketizer: AnyDepacketizer,
    written: Vec<u8>,
    // Where a packet writes that has no room: what was kept before stays until one is accepted.
    spare: Vec<u8>,
}

impl ReceivingEndpoint {
    /// A depacketizer that has no run open and has completed nothing.
    pub fn new(codec: Codec, has_donl: bool) -> Self {
        let mut depacketizer = AnyDepacketizer::new(codec);
        depacketizer.with_donl(has_donl);
        ReceivingEndpoint {
            depacketizer,
            written: Vec::new(),
            spare: Vec::new(),
        }
    }

    /// The same depacketizer again; not what it completed.
    pub fn try_clone(&self) -> Result<Self, PacketError> {
        Ok(ReceivingEndpoint {
            depacketizer: self.depacketizer.try_clone()?,
            written: Vec::new(),
            spare: Vec::new(),
        })
    }

    /// Takes a packet. What it completes goes to the caller's memory where there is room for it, and
    /// is kept where there is none; `written` then tells its bytes.
    pub fn depacketize(
        &mut self,
        is_avc: bool,
        packet: &[u8],
        to: &mut [u8],
        written: &mut MaybeUninit<usize>,
        extra: &mut CodecExtra,
    ) -> Result<(), PacketError> {
        let mut memory = MemorySink::new(to);
        match take(&mut self.depacketizer, is_avc, packet, &mut memory, extra) {
            Ok(()) => {
                written.write(memory.len());
                self.written.clear();
                return Ok(());
            }
            Err(PacketError::OutOfMemory) if memory.lacks_room() => {}
            Err(error) => return Err(error),
        }
        self.spare.clear();
        take(
            &mut self.depacketizer,
            is_avc,
            packet,
            &mut self.spare,
            extra,
        )?;
        written.write(put_or_keep(&mut self.spare, to, &mut self.written));
        Ok(())
    }

    /// What the last accepted packet completed and had no room for.
    pub fn written(&self) -> &[u8] {
        self.written.as_slice()
    }
}

/// Takes a packet, and writes units behind lengths or behind start codes. The setting of the
/// depacketizer itself counts for nothing, and stays.
#[inline(always)]
fn take<W: UnitSink>(
    it: &mut AnyDepacketizer,
    is_avc: bool,
    packet: &[u8],
    out: &mut W,
    extra: &mut CodecExtra,
) -> Result<(), PacketError> {
    it.depacketize_as(is_avc, packet, out, extra)
}
