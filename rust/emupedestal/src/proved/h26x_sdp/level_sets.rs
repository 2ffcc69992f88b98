// Made from crates/h26x_sdp/src/level_sets.rt by tools/to-rust.

//! Parameter sets of levels: the value of `sprop-level-parameter-sets`.

use crate::proved::h26x_fmtp::unit_types::H264_SETS;
use crate::proved::h26x_fmtp::{UnitsError, read_units, split_piece, write_units};
use crate::proved::h26x_sdp::error::LevelSetsError;
use crate::support::AllocError;
use crate::support::hex::FromHex;
use crate::support::{AppendBytes, TryVec};
use alloc::vec::Vec;

/// The parameter sets of a level (RFC 6184, section 8.1).
#[derive(Debug, Clone, PartialEq, Eq, Hash)]
pub struct LevelSets {
    /// profile_idc, profile_iop and level_idc, as in `profile-level-id`.
    pub profile_level_id: [u8; 3],
    /// Its SPS and PPS.
    pub sets: Vec<Vec<u8>>,
}

/// The sets of a text.
fn sets_of(text: &[u8]) -> Result<Vec<Vec<u8>>, UnitsError> {
    let units = read_units(text)?;
    match H264_SETS.fault_in(units.as_slice()) {
        Some(error) => Err(error),
        None => Ok(units),
    }
}

/// The level at a place, of its two texts.
fn level_of(place: usize, id: &[u8], sets: &[u8]) -> Result<LevelSets, LevelSetsError> {
    let Ok(profile_level_id) = <[u8; 3] as FromHex>::from_hex(id) else {
        return Err(LevelSetsError::NotHexadecimal { place });
    };
    match sets_of(sets) {
        Ok(sets) => Ok(LevelSets {
            profile_level_id,
            sets,
        }),
        Err(UnitsError::OutOfMemory) => Err(LevelSetsError::OutOfMemory),
        Err(fault) => Err(LevelSetsError::Sets { place, fault }),
    }
}

/// Reads parameter sets of levels: of each six digits as in `profile-level-id`, `:`, its sets as in
/// `sprop-parameter-sets`, and `:` between levels (RFC 6184, section 8.1).
///
/// What is refused first is told, with its place among the levels: digits that are none, a level
/// without sets, or sets that are none.
pub fn read_level_sets(text: &[u8]) -> Result<Vec<LevelSets>, LevelSetsError> {
    let mut levels = Vec::new();
    let mut rest = Some(text);
    while let Some(text) = rest {
        let (id, behind) = split_piece(text, b':');
        let Some(behind) = behind else {
            return Err(LevelSetsError::NoSets {
                place: levels.len(),
            });
        };
        let (sets, behind) = split_piece(behind, b':');
        let level = level_of(levels.len(), id, sets)?;
        levels.try_push(level)?;
        rest = behind;
    }
    Ok(levels)
}

/// Writes a level at the end of a text.
fn push_level(text: &mut Vec<u8>, level: &LevelSets) -> Result<(), AllocError> {
    let id = crate::support::hex::encode(level.profile_level_id)?.into_bytes();
    let sets = write_units(level.sets.as_slice())?;
    text.try_extend_from_slice(id.as_slice())?;
    text.try_push(b':')?;
    text.try_extend_from_slice(sets.as_slice())
}

/// Writes parameter sets of levels, the digits in lower case. They are read as the same.
pub(crate) fn write_level_sets(levels: &[LevelSets]) -> Result<Vec<u8>, AllocError> {
    let mut text = Vec::new();
    let Some((first, others)) = levels.split_first() else {
        return Ok(text);
    };
    push_level(&mut text, first)?;
    for level in others {
        text.try_push(b':')?;
        push_level(&mut text, level)?;
    }
    Ok(text)
}
