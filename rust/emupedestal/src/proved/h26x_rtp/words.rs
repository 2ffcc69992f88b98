// Made from crates/h26x_rtp/src/words.rt by tools/to-rust.

//! Numbers of two and four bytes, the high byte first, as RTP has them (RFC 3550, 4).

/// The number of two bytes at a place.
#[inline(always)]
pub(crate) fn word_in(bytes: &[u8], place: usize) -> u16 {
    u16::from(bytes[place]) << 8 | u16::from(bytes[place + 1])
}

/// The number of four bytes at a place.
#[inline(always)]
pub(crate) fn long_in(bytes: &[u8], place: usize) -> u32 {
    u32::from(word_in(bytes, place)) * 65536 + u32::from(word_in(bytes, place + 2))
}
