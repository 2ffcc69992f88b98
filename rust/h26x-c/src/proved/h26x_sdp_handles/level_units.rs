// Made from crates/h26x_sdp_handles/src/level_units.rt by tools/to-rust.

//! The units of `sprop-level-parameter-sets` of H.264, by their level.

use crate::proved::h26x_answers::sets_of_level;
use crate::proved::h26x_codes::code::{NOT_OF_THIS_CODEC, OUT_OF_MEMORY};
use crate::proved::h26x_sdp::LevelSets;
use crate::proved::h26x_sdp_handles::sdp::SdpEndpoint;
use crate::proved::h26x_sdp_handles::sdp_code::{ABSENT, Refused, of_level_sets, refused_with};
use crate::support::TrySlice;
use alloc::vec::Vec;

/// One of units, counted from 0.
fn unit_at(units: &[Vec<u8>], i: usize) -> Option<&[u8]> {
    match units.get(i) {
        Some(unit) => Some(unit.as_slice()),
        None => None,
    }
}

/// A unit, counted from 0, of the first sets that are of a level.
fn unit_of_level(levels: &[LevelSets], level: u64, i: usize) -> Option<&[u8]> {
    match sets_of_level(levels, level) {
        Some(it) => unit_at(it.sets.as_slice(), i),
        None => None,
    }
}

impl SdpEndpoint {
    /// The sets of all levels.
    fn level_sets(&self) -> Result<Vec<LevelSets>, Refused> {
        let SdpEndpoint::H264(it) = self else {
            return Err(refused_with(NOT_OF_THIS_CODEC));
        };
        match it.parameters().level_sets() {
            Ok(Some(levels)) => Ok(levels),
            Ok(None) => Err(refused_with(ABSENT)),
            Err(error) => Err(of_level_sets(error)),
        }
    }

    /// A unit, counted from 0, of those that `sprop-level-parameter-sets` of H.264 has for a level: of
    /// the first there that is of that level.
    pub fn level_unit(&self, level: u64, i: usize) -> Result<Vec<u8>, Refused> {
        let levels = self.level_sets()?;
        let Some(unit) = unit_of_level(levels.as_slice(), level, i) else {
            return Err(refused_with(ABSENT));
        };
        match unit.try_to_vec() {
            Ok(unit) => Ok(unit),
            Err(_) => Err(refused_with(OUT_OF_MEMORY)),
        }
    }
}
