//! Ends that send and take payloads as they are: a caller's own codec.

use crate::{CodecExtra, Depacketizer, PacketError, Packetizer};

/// Sends a payload as one packet, and an empty one not at all; takes packets as they are, and tells nothing of them.
#[derive(Debug)]
pub(in crate::tests) struct Plain;

impl Packetizer for Plain {
    fn packetize(&mut self, _mtu: usize, b: &[u8]) -> Result<Vec<Vec<u8>>, PacketError> {
        let is_sent = !b.is_empty();
        Ok(is_sent.then(|| b.to_vec()).into_iter().collect())
    }

    fn is_marker(&mut self, _data: &[u8], _previous: Option<&[u8]>, last: bool) -> bool {
        last
    }
}

impl Depacketizer for Plain {
    fn out_size_hint(&self, packets_size: usize) -> Option<usize> {
        Some(packets_size)
    }

    fn depacketize(
        &mut self,
        packet: &[u8],
        out: &mut Vec<u8>,
        _codec_extra: &mut CodecExtra,
    ) -> Result<(), PacketError> {
        if packet.is_empty() {
            return Err(PacketError::ErrShortPacket);
        }
        out.extend_from_slice(packet);
        Ok(())
    }

    fn is_partition_head(&self, _packet: &[u8]) -> bool {
        true
    }

    fn is_partition_tail(&self, marker: bool, _packet: &[u8]) -> bool {
        marker
    }
}
