// Made from crates/h265_packets/src/aggregation.rt by tools/to-rust.

//! Aggregation packets (RFC 7798, 4.4.2).

use crate::proved::h26x_core::PacketError;
use crate::proved::h265_packets::first_unit::H265AggregationUnitFirst;
use crate::proved::h265_packets::other_unit::H265AggregationUnit;
use crate::support::TryVec;
use alloc::vec::Vec;
use core::mem;

/// These units again.
fn clone_units(units: &[H265AggregationUnit]) -> Result<Vec<H265AggregationUnit>, PacketError> {
    let mut clones = Vec::try_with_room(units.len())?;
    for unit in units {
        clones.push(unit.try_clone()?);
    }
    Ok(clones)
}

/// An aggregation packet (RFC 7798, 4.4.2): its first unit, and the others in order.
#[derive(Debug)]
pub struct H265AggregationPacket {
    first: Option<H265AggregationUnitFirst>,
    others: Vec<H265AggregationUnit>,
    has_donl: bool,
}

impl H265AggregationPacket {
    /// The packet of these units (RFC 7798, 4.4.2). `has_donl` is the mark that `with_donl` sets.
    pub(crate) fn of(
        first: Option<H265AggregationUnitFirst>,
        others: Vec<H265AggregationUnit>,
        has_donl: bool,
    ) -> Self {
        H265AggregationPacket {
            first,
            others,
            has_donl,
        }
    }

    /// A packet of no unit, not marked. It takes no memory.
    pub(crate) fn empty() -> Self {
        H265AggregationPacket {
            first: None,
            others: Vec::new(),
            has_donl: false,
        }
    }

    /// Marks the packet as one with DONL and DOND (RFC 7798, 4.4.2), or as one without. Equality
    /// alone tells the mark; the units stay as they are.
    pub fn with_donl(&mut self, value: bool) {
        self.has_donl = value;
    }

    /// The first unit; there is one in every packet that was read (RFC 7798, 4.4.2).
    pub fn first_unit(&self) -> Option<&H265AggregationUnitFirst> {
        self.first.as_ref()
    }

    /// The units behind the first, in order (RFC 7798, 4.4.2).
    pub fn other_units(&self) -> &[H265AggregationUnit] {
        self.others.as_slice()
    }

    /// All units with their headers, the first and then the others (RFC 7798, 4.4.2). `OutOfMemory`
    /// is its only error.
    pub(crate) fn try_nal_units(&self) -> Result<Vec<&[u8]>, PacketError> {
        let mut units = Vec::try_with_room(self.others.len().saturating_add(1))?;
        if let Some(first) = &self.first {
            units.try_push(first.nal_unit())?;
        }
        for unit in &self.others {
            units.try_push(unit.nal_unit())?;
        }
        Ok(units)
    }

    /// The same packet again. `OutOfMemory` is its only error.
    pub fn try_clone(&self) -> Result<Self, PacketError> {
        let first = match &self.first {
            Some(unit) => Some(unit.try_clone()?),
            None => None,
        };
        Ok(H265AggregationPacket {
            first,
            others: clone_units(&self.others)?,
            has_donl: self.has_donl,
        })
    }

    /// The packet of these units in the place of this one; the buffers of the first units are
    /// exchanged, and the others.
    pub(crate) fn set(
        &mut self,
        donl: Option<u16>,
        first: &mut Vec<u8>,
        others: &mut Vec<H265AggregationUnit>,
        has_donl: bool,
    ) {
        let unit = H265AggregationUnitFirst::of(donl, mem::take(first));
        if let Some(before) = mem::replace(&mut self.first, Some(unit)) {
            *first = before.into_buffer();
        }
        mem::swap(&mut self.others, others);
        self.has_donl = has_donl;
    }

    /// The units, the first and then the others, to be used again.
    pub(crate) fn into_units(self) -> (Option<H265AggregationUnitFirst>, Vec<H265AggregationUnit>) {
        (self.first, self.others)
    }

    /// The buffer of the first unit, to be used again.
    pub(crate) fn into_buffer(self) -> Option<Vec<u8>> {
        self.first.map(H265AggregationUnitFirst::into_buffer)
    }
}

impl PartialEq for H265AggregationPacket {
    fn eq(&self, other: &Self) -> bool {
        self.first == other.first && self.others == other.others && self.has_donl == other.has_donl
    }
}

impl Eq for H265AggregationPacket {}
