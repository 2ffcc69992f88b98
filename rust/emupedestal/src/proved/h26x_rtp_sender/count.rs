// Made from crates/h26x_rtp_sender/src/count.rt by tools/to-rust.

//! What is counted of packets that were sent (RFC 3550, 6.4.1).

use crate::proved::h26x_rtp_sender::payloads::Payloads;

/// What a sender report tells of an SSRC, in 32 bits each (RFC 3550, 6.4.1). Counts stay at 2^64 - 1.
#[derive(Debug, Clone, Copy, PartialEq, Eq)]
pub struct SentCount {
    /// How many packets were sent.
    pub packets: u64,
    /// How many bytes of payload, without headers and padding.
    pub bytes: u64,
}

impl SentCount {
    /// Nothing was sent.
    pub(crate) fn none() -> Self {
        SentCount {
            packets: 0,
            bytes: 0,
        }
    }

    /// Once a packet with so many bytes of payload was sent.
    pub(crate) fn with(self, size: usize) -> Self {
        SentCount {
            packets: self.packets.saturating_add(1),
            bytes: self.bytes.saturating_add(size as u64),
        }
    }

    /// Once payloads were sent that end at these places of memory.
    pub(crate) fn with_all(self, headroom: usize, ends: &[usize], bytes: &[u8]) -> Self {
        let mut count = self;
        for payload in Payloads::new(headroom, ends, bytes) {
            count = count.with(payload.len());
        }
        count
    }
}
