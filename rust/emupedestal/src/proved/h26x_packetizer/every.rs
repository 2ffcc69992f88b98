// Made from crates/h26x_packetizer/src/every.rt by tools/to-rust.

//! Every unit of a list in packets, in order.

use crate::proved::h26x_core::PacketError;
use crate::proved::h26x_packetizer::body::Body;
use crate::proved::h26x_packetizer::every_format::EveryFormat;
use crate::proved::h26x_packetizer::fragmentation::donl_bytes;
use crate::proved::h26x_packetizer::group::first_group;
use crate::proved::h26x_packetizer::packing::Packing;
use crate::proved::h26x_packetizer::sink::PacketSink;
use crate::proved::h26x_packetizer::units::push_unit;
use crate::support::AllocError;

/// Appends an aggregate of units.
#[inline(always)]
fn push_together<'a, C: EveryFormat, S: PacketSink<'a>>(
    codec: C,
    don: u16,
    units: &'a [&'a [u8]],
    made: &mut S,
) -> Result<(), AllocError> {
    let header = codec.own_header(units);
    let mut bytes = [0; 2];
    let donl = donl_bytes(codec.has_donl(), don, &mut bytes);
    let gap: &'a [u8] = if codec.has_dond() { &[0] } else { &[] };
    made.try_push(
        &header[..codec.header_len()],
        donl,
        Body::Units { units, gap },
    )
}

/// Appends the packets of a group of units; the next number.
#[inline(always)]
fn push_group<'a, C: EveryFormat, S: PacketSink<'a>>(
    codec: C,
    limit: usize,
    don: u16,
    units: &'a [&'a [u8]],
    made: &mut S,
) -> Result<u16, PacketError> {
    if units.len() == 1 {
        return push_unit(codec, limit, don, units[0], made);
    }
    push_together(codec, don, units, made)?;
    Ok(don.wrapping_add((units.len() % 65536) as u16))
}

/// Appends the packet of units that are known to go in one, as [`push_units`] does: none is looked at
/// again to tell how many go.
#[inline(always)]
pub(crate) fn push_in_one<'a, C: EveryFormat, S: PacketSink<'a>>(
    codec: C,
    limit: usize,
    don: u16,
    units: &'a [&'a [u8]],
    made: &mut S,
) -> Result<u16, PacketError> {
    push_group(codec, limit, don, units, made)
}

/// Appends the packets of units, in order, none of them left out; the next number.
pub(crate) fn push_units<'a, C: EveryFormat, S: PacketSink<'a>>(
    codec: C,
    packing: Packing,
    limit: usize,
    don: u16,
    units: &'a [&'a [u8]],
    made: &mut S,
) -> Result<u16, PacketError> {
    if units.len() == 1 {
        return push_unit(codec, limit, don, units[0], made);
    }
    let mut don = don;
    let mut at = 0;
    while at < units.len() {
        let count = first_group(codec, packing, limit, &units[at..]);
        don = push_group(codec, limit, don, &units[at..at + count], made)?;
        at += count;
    }
    Ok(don)
}
