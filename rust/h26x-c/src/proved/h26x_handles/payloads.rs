// Made from crates/h26x_handles/src/payloads.rt by tools/to-rust.

//! Payloads that lie in one buffer.

use crate::proved::h26x_reorder::RtpPacket;

/// The payload of an RTP packet in a buffer with others, and what its header says.
#[repr(C)]
#[derive(Clone, Copy)]
pub struct RtpPayload {
    pub begin: usize,
    pub end: usize,
    pub timestamp: u32,
    pub sequence: u16,
    pub marker: bool,
}

/// Whether payloads lie in a buffer of so many bytes, each of them.
pub fn are_within(payloads: &[RtpPayload], len: usize) -> bool {
    payloads
        .iter()
        .all(|it| it.begin <= it.end && it.end <= len)
}

/// The bytes of a payload.
pub(crate) fn payload_in<'a>(bytes: &'a [u8], it: &RtpPayload) -> &'a [u8] {
    &bytes[it.begin..it.end]
}

/// The packet that bears it.
pub(crate) fn packet_in<'a>(bytes: &'a [u8], it: &RtpPayload) -> RtpPacket<'a> {
    RtpPacket {
        sequence: it.sequence,
        timestamp: it.timestamp,
        marker: it.marker,
        payload: payload_in(bytes, it),
    }
}

/// Puts an entry at a place, where there is one.
pub fn put_at<T: Copy>(to: &mut [T], place: usize, it: T) {
    if place < to.len() {
        to[place] = it;
    }
}
