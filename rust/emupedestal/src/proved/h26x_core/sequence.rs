// Made from crates/h26x_core/src/sequence.rt by tools/to-rust.

//! Sequence numbers of RTP packets, which go round at 65536 (RFC 3550, 5.1).

/// Whether a sequence number is the one expected, which none is before the first packet.
#[inline]
pub fn is_next(expected: Option<u16>, sequence: u16) -> bool {
    match expected {
        Some(expected) => sequence == expected,
        None => false,
    }
}
