// Made from crates/h265_packets/src/other_unit.rt by tools/to-rust.

//! A unit of an aggregation packet behind the first (RFC 7798, 4.4.2).

use crate::proved::h26x_core::PacketError;
use crate::support::AllocError;
use crate::support::{AppendBytes, TrySlice};
use alloc::vec::Vec;

/// A unit of an aggregation packet behind the first (RFC 7798, 4.4.2), and DOND where it was read.
pub struct H265AggregationUnit {
    dond: Option<u8>,
    nal_unit: Vec<u8>,
}

/// Of bytes it tells how many there are.
impl core::fmt::Debug for H265AggregationUnit {
    fn fmt(&self, f: &mut core::fmt::Formatter<'_>) -> core::fmt::Result {
        use crate::support::Count;
        f.debug_struct("H265AggregationUnit")
            .field("dond", &self.dond)
            .field("nal_unit", &Count(self.nal_unit.len()))
            .finish()
    }
}

impl H265AggregationUnit {
    /// A unit of no byte, without DOND. It takes no memory.
    pub(crate) fn empty() -> Self {
        H265AggregationUnit {
            dond: None,
            nal_unit: Vec::new(),
        }
    }

    /// DOND, the difference of the unit's decoding order number from that of the unit before, less
    /// 1, where it was read (RFC 7798, 4.4.2).
    pub fn dond(&self) -> Option<u8> {
        self.dond
    }

    /// How many bytes the unit has, its header among them (RFC 7798, 4.4.2).
    pub fn nalu_size(&self) -> u16 {
        self.nal_unit.len() as u16
    }

    /// The unit with its header (RFC 7798, 4.4.2).
    pub fn nal_unit(&self) -> &[u8] {
        self.nal_unit.as_slice()
    }

    /// The same unit again. `OutOfMemory` is its only error.
    pub fn try_clone(&self) -> Result<Self, PacketError> {
        Ok(H265AggregationUnit {
            dond: self.dond,
            nal_unit: self.nal_unit.try_to_vec()?,
        })
    }

    /// The unit of these parts in the place of this one, and in its buffer. A refusal leaves this
    /// one.
    pub(crate) fn set(&mut self, dond: Option<u8>, nal_unit: &[u8]) -> Result<(), AllocError> {
        let more = nal_unit.len().saturating_sub(self.nal_unit.len());
        self.nal_unit.try_reserve(more)?;
        self.nal_unit.clear();
        self.nal_unit.append_bytes(nal_unit);
        self.dond = dond;
        Ok(())
    }
}

impl PartialEq for H265AggregationUnit {
    fn eq(&self, other: &Self) -> bool {
        self.dond == other.dond && self.nal_unit == other.nal_unit
    }
}

impl Eq for H265AggregationUnit {}
