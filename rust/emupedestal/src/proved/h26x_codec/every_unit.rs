// Made from crates/h26x_codec/src/every_unit.rt by tools/to-rust.

//! Which units of an access unit are sent where every unit goes.

use crate::proved::h26x_codec::codec::Codec;
use crate::proved::h26x_cut::units;
use crate::proved::h26x_packetizer::{EveryUnitError, RefusedUnit};
use crate::support::AllocError;
use crate::support::TryVec;
use alloc::vec::Vec;

/// For how many units there is room at first: so many that few access units need more.
const FIRST_UNITS: usize = 16;

impl Codec {
    /// Whether a unit is an access unit delimiter or filler data, of which a decoder needs nothing
    /// (H.264, table 7-1; H.265, table 7-1; H.266, table 5).
    pub fn is_delimiter(self, unit: &[u8]) -> bool {
        let place = if self == Codec::H266 { 1 } else { 0 };
        if unit.len() <= place {
            return false;
        }
        let byte = unit[place];
        match self {
            Codec::H264 => matches!(byte & 0x1f, 9 | 12),
            Codec::H265 => matches!(byte >> 1 & 0x3f, 35 | 38),
            Codec::H266 => matches!(byte >> 3, 20 | 25),
        }
    }

    /// Whether a unit is sent, where delimiters and filler are, or are left out.
    fn sends(self, delimiters: bool, unit: &[u8]) -> bool {
        delimiters || !self.is_delimiter(unit)
    }
}

/// The units of an access unit in Annex B form that are sent, as slices of it: all, or all but
/// delimiters and filler data.
pub(crate) fn sent_units<'a>(
    codec: Codec,
    delimiters: bool,
    access_unit: &'a [u8],
) -> Result<Vec<&'a [u8]>, AllocError> {
    let mut found = Vec::try_with_room(FIRST_UNITS)?;
    for unit in units(access_unit, codec.zero_rule()) {
        if codec.sends(delimiters, unit) {
            found.try_push(unit)?;
        }
    }
    Ok(found)
}

/// The place among units of the one at this place among those of them that are sent; as many as there
/// are where none is at that place.
fn place_among(codec: Codec, delimiters: bool, units: &[&[u8]], place: usize) -> usize {
    let mut left = place;
    let mut at = 0;
    for unit in units {
        if codec.sends(delimiters, unit) {
            if left == 0 {
                return at;
            }
            left -= 1;
        }
        at += 1;
    }
    at
}

/// An error of sending the [`sent_units`] of an access unit, a refused unit by its place among all.
/// It is `OutOfMemory` too where memory lacks to find that.
pub fn refused_among_all(
    codec: Codec,
    delimiters: bool,
    access_unit: &[u8],
    error: EveryUnitError,
) -> EveryUnitError {
    let EveryUnitError::Unit(unit) = error else {
        return error;
    };
    match sent_units(codec, true, access_unit) {
        Ok(all) => EveryUnitError::Unit(RefusedUnit {
            place: place_among(codec, delimiters, &all, unit.place),
            ..unit
        }),
        Err(_) => EveryUnitError::OutOfMemory,
    }
}
