// Made from crates/h26x_handles/src/unit_list.rt by tools/to-rust.

//! Units of an access unit in order, of which few take no memory.

use crate::proved::h26x_codec::Codec;
use crate::proved::h26x_cut::units;
use crate::support::AllocError;
use crate::support::{TrySlice, TryVec};
use alloc::vec::Vec;

/// So many take no memory of the allocator: few access units have more.
const FEW_UNITS: usize = 16;

/// Units as slices, in order: few stand here, and where they are more all in a list.
pub(crate) struct UnitList<'a> {
    few: [&'a [u8]; FEW_UNITS],
    count: usize,
    is_many: bool,
    many: Vec<&'a [u8]>,
}

impl<'a> UnitList<'a> {
    /// A list of none of the units of an access unit.
    #[inline(always)]
    pub(crate) fn new(access_unit: &'a [u8]) -> Self {
        UnitList {
            // (what stands in these places is never looked at)
            few: [access_unit; FEW_UNITS],
            count: 0,
            is_many: false,
            many: Vec::new(),
        }
    }

    /// All as a slice.
    #[inline]
    pub(crate) fn as_slice(&self) -> &[&'a [u8]] {
        if self.is_many {
            &self.many
        } else {
            &self.few[..self.count]
        }
    }

    /// Appends a unit.
    #[inline(always)]
    pub(crate) fn add(&mut self, unit: &'a [u8]) -> Result<(), AllocError> {
        let count = self.count;
        if count < FEW_UNITS {
            self.few[count] = unit;
            self.count = count + 1;
            return Ok(());
        }
        if self.is_many {
            self.many.try_push(unit)?;
            return Ok(());
        }
        self.add_to_many(unit)
    }

    /// Appends a unit to the list.
    #[cold]
    #[inline(never)]
    fn add_to_many(&mut self, unit: &'a [u8]) -> Result<(), AllocError> {
        if !self.is_many {
            let count = self.count;
            self.many = self.few[..count].try_to_vec()?;
            self.many.try_reserve(3 * FEW_UNITS)?;
            self.count = FEW_UNITS;
            self.is_many = true;
        }
        self.many.try_push(unit)?;
        Ok(())
    }
}

/// Appends the units of an access unit in Annex B form that are sent to a list, as slices of it: all,
/// or all but delimiters and filler data.
#[inline(always)]
pub(crate) fn list_sent<'a>(
    codec: Codec,
    delimiters: bool,
    access_unit: &'a [u8],
    list: &mut UnitList<'a>,
) -> Result<(), AllocError> {
    for unit in units(access_unit, codec.zero_rule()) {
        if delimiters || !codec.is_delimiter(unit) {
            list.add(unit)?;
        }
    }
    Ok(())
}
