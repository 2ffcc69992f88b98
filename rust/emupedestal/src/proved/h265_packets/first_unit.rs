// Made from crates/h265_packets/src/first_unit.rt by tools/to-rust.

//! The first unit of an aggregation packet (RFC 7798, 4.4.2).

use crate::proved::h26x_core::PacketError;
use crate::support::TrySlice;
use alloc::vec::Vec;

/// The first unit of an aggregation packet (RFC 7798, 4.4.2), and DONL where it was read.
pub struct H265AggregationUnitFirst {
    donl: Option<u16>,
    nal_unit: Vec<u8>,
}

/// Of bytes it tells how many there are.
impl core::fmt::Debug for H265AggregationUnitFirst {
    fn fmt(&self, f: &mut core::fmt::Formatter<'_>) -> core::fmt::Result {
        use crate::support::Count;
        f.debug_struct("H265AggregationUnitFirst")
            .field("donl", &self.donl)
            .field("nal_unit", &Count(self.nal_unit.len()))
            .finish()
    }
}

impl H265AggregationUnitFirst {
    /// The unit of these parts (RFC 7798, 4.4.2).
    pub(crate) fn of(donl: Option<u16>, nal_unit: Vec<u8>) -> Self {
        H265AggregationUnitFirst { donl, nal_unit }
    }

    /// A unit of no byte, without DONL. It takes no memory.
    pub(crate) fn empty() -> Self {
        H265AggregationUnitFirst {
            donl: None,
            nal_unit: Vec::new(),
        }
    }

    /// DONL, the low 16 bits of the unit's decoding order number, where it was read (RFC 7798,
    /// 4.4.2).
    pub fn donl(&self) -> Option<u16> {
        self.donl
    }

    /// How many bytes the unit has, its header among them (RFC 7798, 4.4.2).
    pub fn nalu_size(&self) -> u16 {
        self.nal_unit.len() as u16
    }

    /// The unit with its header (RFC 7798, 4.4.2).
    pub fn nal_unit(&self) -> &[u8] {
        self.nal_unit.as_slice()
    }

    /// The same unit again. `OutOfMemory` is its only error.
    pub fn try_clone(&self) -> Result<Self, PacketError> {
        Ok(H265AggregationUnitFirst {
            donl: self.donl,
            nal_unit: self.nal_unit.try_to_vec()?,
        })
    }

    /// The buffer of the unit, to be used again.
    pub(crate) fn into_buffer(self) -> Vec<u8> {
        self.nal_unit
    }
}

impl PartialEq for H265AggregationUnitFirst {
    fn eq(&self, other: &Self) -> bool {
        self.donl == other.donl && self.nal_unit == other.nal_unit
    }
}

impl Eq for H265AggregationUnitFirst {}
