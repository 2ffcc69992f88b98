// Made from crates/h26x_depacketizer/src/extra.rt by tools/to-rust.

//! What a depacketizer tells of the units that it wrote.

use crate::proved::h26x_core::CodecExtra;
use crate::proved::h26x_payload::PayloadFormat;

/// The extra after units, with a key unit among them or not.
pub fn told<C: PayloadFormat>(codec: C, extra: CodecExtra, key: bool) -> CodecExtra {
    codec.extra(codec.has_key(extra) || key)
}

/// How many bytes the units of packets of this many bytes may take: four more, and four for each
/// whole 1200 of them; at most `usize::MAX`.
pub fn out_size_hint(packets_size: usize) -> Option<usize> {
    Some(packets_size.saturating_add(4 * (packets_size / 1200 + 1)))
}
