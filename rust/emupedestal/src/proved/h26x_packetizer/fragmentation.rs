// Made from crates/h26x_packetizer/src/fragmentation.rt by tools/to-rust.

//! A unit in fragments, for every codec.

use crate::proved::h26x_packetizer::body::Body;
use crate::proved::h26x_packetizer::sink::PacketSink;
use crate::proved::h26x_payload::PayloadFormat;
use crate::support::AllocError;

/// How many bytes a number takes.
pub(crate) fn donl_len<C: PayloadFormat>(codec: C) -> usize {
    if codec.has_donl() { 2 } else { 0 }
}

/// The bytes of a number, of which packets bear either all or none.
pub(crate) fn donl_bytes<'a>(has_donl: bool, don: u16, bytes: &'a mut [u8; 2]) -> &'a [u8] {
    *bytes = don.to_be_bytes();
    if has_donl { bytes.as_slice() } else { &[] }
}

/// Appends a fragment of this part of a unit's data, behind these bytes of a number.
#[inline(always)]
fn push_fragment<'a, C: PayloadFormat, S: PacketSink<'a>>(
    codec: C,
    unit: &[u8],
    start: bool,
    end: bool,
    donl: &[u8],
    part: &'a [u8],
    made: &mut S,
) -> Result<(), AllocError> {
    let header = codec.fragment_header(unit, start, end);
    made.try_push(&header[..codec.header_len() + 1], donl, Body::Data(part))
}

/// How many fragments a unit that doesn't fit goes in.
fn count_of_fragments<C: PayloadFormat>(codec: C, limit: usize, unit: &[u8]) -> usize {
    let header_len = codec.header_len();
    (donl_len(codec) + (unit.len() - header_len)).div_ceil(limit - (header_len + 1))
}

/// Appends the fragments of a unit, the first with these bytes of its number. Each but the last is
/// of `limit` bytes.
fn push_data<'a, C: PayloadFormat, S: PacketSink<'a>>(
    codec: C,
    limit: usize,
    _don: u16,
    unit: &'a [u8],
    donl: &[u8],
    made: &mut S,
) -> Result<(), AllocError> {
    let header_len = codec.header_len();
    let room = limit - (header_len + 1);
    let mut donl = donl;
    let mut start = true;
    let mut rest = &unit[header_len..];
    while !rest.is_empty() {
        let taken = rest.len().min(room - donl.len());
        let end = taken == rest.len();
        push_fragment(codec, unit, start, end, donl, &rest[..taken], made)?;
        donl = &[];
        start = false;
        rest = &rest[taken..];
    }
    Ok(())
}

/// Appends the fragments of a unit that doesn't fit.
pub(crate) fn push_fragments<'a, C: PayloadFormat, S: PacketSink<'a>>(
    codec: C,
    limit: usize,
    don: u16,
    unit: &'a [u8],
    made: &mut S,
) -> Result<(), AllocError> {
    made.try_reserve(count_of_fragments(codec, limit, unit))?;
    let mut bytes = [0; 2];
    let donl = donl_bytes(codec.has_donl(), don, &mut bytes);
    push_data(codec, limit, don, unit, donl, made)
}
