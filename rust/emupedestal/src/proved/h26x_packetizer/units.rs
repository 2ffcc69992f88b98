// Made from crates/h26x_packetizer/src/units.rt by tools/to-rust.

//! The packets of units and of the sets before them, for every codec.

use crate::proved::h26x_core::PacketError;
use crate::proved::h26x_packetizer::body::Body;
use crate::proved::h26x_packetizer::fragmentation::{donl_bytes, donl_len, push_fragments};
use crate::proved::h26x_packetizer::sink::PacketSink;
use crate::proved::h26x_payload::{PayloadFormat, Sets};
use crate::support::AllocError;

/// What goes when a unit comes.
#[derive(Clone, Copy)]
pub enum Outgoing<'a> {
    Nothing,
    Unit,
    /// Sets, and then the unit.
    SetsAndUnit(Sets<'a>),
}

/// Appends a unit with its number behind its header.
#[inline(always)]
fn push_single<'a, C: PayloadFormat, S: PacketSink<'a>>(
    codec: C,
    don: u16,
    unit: &'a [u8],
    made: &mut S,
) -> Result<(), AllocError> {
    if !codec.has_donl() {
        return made.try_push(&[], &[], Body::Data(unit));
    }
    let mut bytes = [0; 2];
    let donl = donl_bytes(true, don, &mut bytes);
    let header_len = unit.len().min(codec.header_len());
    made.try_push(&unit[..header_len], donl, Body::Data(&unit[header_len..]))
}

/// Whether fragments have room for data.
pub(crate) fn has_room<C: PayloadFormat>(codec: C, limit: usize) -> bool {
    limit > codec.header_len() + 1 + donl_len(codec)
}

/// Whether a unit and its number go in one packet.
pub(crate) fn fits_one<C: PayloadFormat>(codec: C, limit: usize, unit: &[u8]) -> bool {
    unit.len() + donl_len(codec) <= limit
}

/// Appends the packets of one unit: itself where it fits one, else its fragments; none where these
/// have no room for data.
pub(crate) fn push_unit<'a, C: PayloadFormat, S: PacketSink<'a>>(
    codec: C,
    limit: usize,
    don: u16,
    unit: &'a [u8],
    made: &mut S,
) -> Result<u16, PacketError> {
    if fits_one(codec, limit, unit) {
        push_single(codec, don, unit, made)?;
    } else if has_room(codec, limit) {
        push_fragments(codec, limit, don, unit, made)?;
    } else {
        return Ok(don);
    }
    Ok(don.wrapping_add(1))
}

/// Appends the packet of a set alone, if there is one and it fits.
fn push_set<'a, C: PayloadFormat, S: PacketSink<'a>>(
    codec: C,
    limit: usize,
    don: u16,
    set: Option<&'a [u8]>,
    made: &mut S,
) -> Result<u16, PacketError> {
    match set {
        Some(set) if fits_one(codec, limit, set) => {
            push_single(codec, don, set, made)?;
            Ok(don.wrapping_add(1))
        }
        _ => Ok(don),
    }
}

/// Appends the packet of sets that go together, before a unit.
fn push_aggregate<'a, C: PayloadFormat, S: PacketSink<'a>>(
    codec: C,
    don: u16,
    sets: Sets<'a>,
    unit: &[u8],
    made: &mut S,
) -> Result<(), AllocError> {
    let header = codec.sets_header(sets, unit);
    let mut bytes = [0; 2];
    let donl = donl_bytes(codec.has_donl(), don, &mut bytes);
    let gap: &'a [u8] = if codec.has_dond() { &[0] } else { &[] };
    made.try_push(
        &header[..codec.header_len()],
        donl,
        Body::Sets { sets, gap },
    )
}

/// Appends the packets of sets: one if they fit it, else each that fits alone.
fn push_sets<'a, C: PayloadFormat, S: PacketSink<'a>>(
    codec: C,
    limit: usize,
    don: u16,
    sets: Sets<'a>,
    unit: &[u8],
    made: &mut S,
) -> Result<u16, PacketError> {
    if codec.sets_fit(limit, sets) {
        push_aggregate(codec, don, sets, unit, made)?;
        return Ok(don.wrapping_add(sets.count()));
    }
    let second = push_set(codec, limit, don, sets.vps, made)?;
    let third = push_set(codec, limit, second, Some(sets.sps), made)?;
    push_set(codec, limit, third, Some(sets.pps), made)
}

/// Appends the packets of what goes when a unit comes.
#[inline(always)]
pub(crate) fn push_outgoing<'a, C: PayloadFormat, S: PacketSink<'a>>(
    codec: C,
    limit: usize,
    don: u16,
    unit: &'a [u8],
    outgoing: Outgoing<'a>,
    made: &mut S,
) -> Result<u16, PacketError> {
    match outgoing {
        Outgoing::Nothing => Ok(don),
        Outgoing::Unit => {
            made.try_reserve(1)?;
            push_unit(codec, limit, don, unit, made)
        }
        Outgoing::SetsAndUnit(sets) => {
            made.try_reserve(1)?;
            let next = push_sets(codec, limit, don, sets, unit, made)?;
            push_unit(codec, limit, next, unit, made)
        }
    }
}
