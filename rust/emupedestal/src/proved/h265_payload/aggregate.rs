// Made from crates/h265_payload/src/aggregate.rt by tools/to-rust.

//! The units of an aggregation packet, as slices of it (RFC 7798, 4.4.2).

use crate::proved::h26x_core::{PacketError, first_piece};
use crate::proved::h26x_depacketizer::{Aggregate, written_size};
use crate::proved::h265_payload::codec::H265;

/// A unit behind its length, and with decoding order numbers behind DOND too.
#[derive(Clone, Copy)]
pub struct Other<'a> {
    /// The difference of its number from the one before, less 1.
    pub dond: Option<u8>,
    /// The unit.
    pub unit: &'a [u8],
    /// What stands behind it.
    pub behind: &'a [u8],
}

/// The first of units that each stand behind DOND and their length.
#[inline(always)]
fn first_apart(bytes: &[u8]) -> Option<Other<'_>> {
    if bytes.len() < 3 {
        return None;
    }
    match first_piece(&bytes[1..]) {
        Ok((unit, behind)) => Some(Other {
            dond: Some(bytes[0]),
            unit,
            behind,
        }),
        Err(_) => None,
    }
}

/// The first of units that each stand behind their length alone.
#[inline(always)]
fn first_behind(bytes: &[u8]) -> Option<Other<'_>> {
    if bytes.len() < 2 {
        return None;
    }
    match first_piece(bytes) {
        Ok((unit, behind)) => Some(Other {
            dond: None,
            unit,
            behind,
        }),
        Err(_) => None,
    }
}

/// The first unit of these bytes.
#[inline(always)]
pub fn first_other(has_donl: bool, bytes: &[u8]) -> Option<Other<'_>> {
    if has_donl {
        first_apart(bytes)
    } else {
        first_behind(bytes)
    }
}

impl Aggregate for H265 {
    #[inline(always)]
    fn first_unit(self, bytes: &[u8]) -> Option<(&[u8], &[u8])> {
        match first_other(self.has_donl, bytes) {
            Some(it) => Some((it.unit, it.behind)),
            None => None,
        }
    }
}

/// How many bytes the units of an aggregate take where they are written, at most `usize::MAX`;
/// fewer than two are refused.
pub fn check_aggregate(has_donl: bool, bytes: &[u8]) -> Result<usize, PacketError> {
    let Some(first) = first_other(has_donl, bytes) else {
        return Err(PacketError::ErrShortPacket);
    };
    if first_other(has_donl, first.behind).is_none() {
        return Err(PacketError::ErrShortPacket);
    }
    let codec = H265 { has_donl };
    Ok(written_size(codec, bytes))
}
