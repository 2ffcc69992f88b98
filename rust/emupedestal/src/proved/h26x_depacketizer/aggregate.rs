// Made from crates/h26x_depacketizer/src/aggregate.rt by tools/to-rust.

//! The units of an aggregate, as slices of it (RFC 6184, 5.7.1; RFC 7798, 4.4.2; RFC 9328, 4.3.2).

use crate::proved::h26x_core::{CodecExtra, PacketError, first_piece};
use crate::proved::h26x_depacketizer::byte_stream::{PREFIX_SIZE, put_unit};
use crate::proved::h26x_depacketizer::extra::told;
use crate::proved::h26x_depacketizer::sink::UnitSink;
use crate::proved::h26x_payload::PayloadFormat;

/// A codec's aggregates: how units stand behind each other (RFC 6184, 5.7.1; RFC 7798, 4.4.2; RFC
/// 9328, 4.3.2).
pub trait Aggregate: PayloadFormat {
    /// The first unit of bytes, and what stands behind it.
    fn first_unit(self, bytes: &[u8]) -> Option<(&[u8], &[u8])>;
}

/// How many bytes the units of an aggregate take where they are written, at most `usize::MAX` (RFC
/// 6184, 5.7.1; RFC 7798, 4.4.2; RFC 9328, 4.3.2). None of them is too long for an AVC length.
pub fn written_size<A: Aggregate>(codec: A, bytes: &[u8]) -> usize {
    let mut size: usize = 0;
    let mut rest = bytes;
    while let Some((unit, behind)) = codec.first_unit(rest) {
        size = size.saturating_add(unit.len().saturating_add(PREFIX_SIZE));
        rest = behind;
    }
    size
}

/// Writes the units of an aggregate, which take `size` bytes, and tells of them (RFC 6184, 5.7.1;
/// RFC 7798, 4.4.2; RFC 9328, 4.3.2).
pub(crate) fn write_units<A: Aggregate, W: UnitSink>(
    codec: A,
    is_avc: bool,
    bytes: &[u8],
    size: usize,
    out: &mut W,
    codec_extra: &mut CodecExtra,
) -> Result<(), PacketError> {
    out.try_reserve(size)?;
    let mut counts = false;
    let mut key = false;
    let mut rest = bytes;
    while let Some((unit, behind)) = codec.first_unit(rest) {
        put_unit(is_avc, unit, out);
        counts |= unit.len() >= codec.header_len();
        key |= codec.is_key(unit);
        rest = behind;
    }
    if counts {
        *codec_extra = told(codec, *codec_extra, key);
    }
    Ok(())
}

/// Whether a key unit stands in bytes behind its length, before the first unit that is not whole or
/// that has no whole header (str0m's rule for RFC 7798, 4.4.2, and RFC 9328, 4.3.2).
pub fn holds_key<C: PayloadFormat>(codec: C, bytes: &[u8]) -> bool {
    let mut rest = bytes;
    while rest.len() >= 2 {
        match first_piece(rest) {
            Ok((unit, behind)) if unit.len() >= codec.header_len() => {
                if codec.is_key(unit) {
                    return true;
                }
                rest = behind;
            }
            _ => return false,
        }
    }
    false
}
