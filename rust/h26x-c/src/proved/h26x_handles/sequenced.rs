// Made from crates/h26x_handles/src/sequenced.rt by tools/to-rust.

//! A receiver of packets with their sequence numbers, and what the last packet that it took completed
//! and had no room for.

use crate::proved::h26x_codec::{AnyDepacketizer, Codec};
use crate::proved::h26x_codes::copy::put_or_keep;
use crate::proved::h26x_core::{CodecExtra, PacketError};
use crate::proved::h26x_depacketizer::{MemorySink, RunDepacketizer};
use crate::proved::h26x_receiver::{Received, SequencedDepacketizer};
use alloc::vec::Vec;
use core::mem::MaybeUninit;

/// What became of a packet that wasn't refused, and how many bytes it completed.
#[derive(Clone, Copy)]
pub struct Completed {
    pub received: Received,
    pub len: usize,
}

/// A receiver of a codec's packets with their sequence numbers, and what the last packet that was
/// taken completed and had no room for.
pub struct SequencedEndpoint {
    receiver: SequencedDepacketizer<AnyDepacketizer>,
    written: Vec<u8>,
    // Where a packet writes that has no room: what was kept before stays until one is taken.
    spare: Vec<u8>,
}

impl SequencedEndpoint {
    /// A receiver that takes any sequence number as the first, and has completed nothing.
    pub fn new(codec: Codec, has_donl: bool, is_avc: bool, run_limit: usize) -> Self {
        let mut depacketizer = AnyDepacketizer::new(codec);
        depacketizer.with_donl(has_donl);
        depacketizer.set_avc(is_avc);
        SequencedEndpoint {
            receiver: SequencedDepacketizer::new(depacketizer, run_limit),
            written: Vec::new(),
            spare: Vec::new(),
        }
    }

    /// The same receiver again, which expects the same number; not what it completed.
    pub fn try_clone(&self) -> Result<Self, PacketError> {
        let depacketizer = self.receiver.depacketizer.try_clone()?;
        let run_limit = self.receiver.run_limit;
        let mut receiver = SequencedDepacketizer::new(depacketizer, run_limit);
        receiver.expected = self.receiver.expected;
        Ok(SequencedEndpoint {
            receiver,
            written: Vec::new(),
            spare: Vec::new(),
        })
    }

    /// Takes a packet with its sequence number. What it completes goes to the caller's memory where
    /// there is room for it, and is kept where there is none; `written` then tells its bytes. A packet
    /// that is late, comes twice or is refused leaves everything.
    pub fn receive(
        &mut self,
        sequence: u16,
        packet: &[u8],
        to: &mut [u8],
        written: &mut MaybeUninit<usize>,
        extra: &mut CodecExtra,
    ) -> Result<Received, PacketError> {
        let completed = self.receive_counted(sequence, packet, to, extra)?;
        if completed.received.is_taken() {
            written.write(completed.len);
        }
        Ok(completed.received)
    }

    /// The same, where the answer tells how many bytes are completed: none by a packet that isn't
    /// taken.
    pub fn receive_counted(
        &mut self,
        sequence: u16,
        packet: &[u8],
        to: &mut [u8],
        extra: &mut CodecExtra,
    ) -> Result<Completed, PacketError> {
        let mut memory = MemorySink::new(to);
        match self.receiver.receive(sequence, packet, &mut memory, extra) {
            Ok(received) => {
                let len = memory.len();
                if received.is_taken() {
                    self.written.clear();
                }
                return Ok(Completed { received, len });
            }
            Err(PacketError::OutOfMemory) if memory.lacks_room() => {}
            Err(error) => return Err(error),
        }
        self.spare.clear();
        let received = self
            .receiver
            .receive(sequence, packet, &mut self.spare, extra)?;
        // It is taken: one that is late is answered at once, and memory lacks for none.
        let len = put_or_keep(&mut self.spare, to, &mut self.written);
        Ok(Completed { received, len })
    }

    /// Passes over a number that came and bears nothing of the stream: it isn't missing.
    pub fn skip(&mut self, sequence: u16) -> Received {
        self.receiver.skip(sequence)
    }

    /// Gives up the open run, and takes any sequence number as the next.
    pub fn restart(&mut self) {
        self.receiver.restart();
    }

    /// Sets whether packets bear decoding order numbers; that of H.264 stays as it is.
    pub fn with_donl(&mut self, has_donl: bool) {
        self.receiver.depacketizer.with_donl(has_donl);
    }

    /// Sets whether units are written behind lengths or behind start codes.
    pub fn set_avc(&mut self, is_avc: bool) {
        self.receiver.depacketizer.set_avc(is_avc);
    }

    /// How many bytes the open run holds; none where none is open.
    pub fn run_len(&self) -> usize {
        self.receiver.depacketizer.run_len()
    }

    /// Its depacketizer.
    pub fn depacketizer(&self) -> &AnyDepacketizer {
        &self.receiver.depacketizer
    }

    /// What the last packet that was taken completed and had no room for.
    pub fn written(&self) -> &[u8] {
        self.written.as_slice()
    }
}
