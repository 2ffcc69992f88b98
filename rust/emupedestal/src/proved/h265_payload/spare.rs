// Made from crates/h265_payload/src/spare.rt by tools/to-rust.

//! The memory that the next packet is shown by.

use crate::proved::h265_packets::{H265AggregationUnit, H265Payload};
use crate::support::AllocError;
use crate::support::{AppendBytes, TryVec};
use alloc::vec::Vec;
use core::mem;

/// How many units of a list keep their memory for later ones.
const MOST_UNITS: usize = 32;

/// How many bytes each of them may have. A unit that was longer is never used again, so no sender has
/// a depacketizer keep a long list, in each place of which a long unit stood once.
const MOST_BYTES: usize = 1500;

/// For how many units a list that is kept may have room.
const MOST_ROOM: usize = 256;

/// How many bytes of memory are kept for the next packet's data: sixteen of the largest packets.
const MOST_DATA: usize = 1_048_576;

/// Memory of packets that were shown before. What the next packet is shown by is put there first,
/// and changes places with what is shown when nothing can fail any more.
pub struct Spare {
    /// The next packet's data, or the first unit of an aggregate.
    pub data: Vec<u8>,
    /// The further units of an aggregate. Until then, those of one that was shown before.
    pub others: Vec<H265AggregationUnit>,
    /// The second list of further units, while no aggregate is shown that has it.
    second: Vec<H265AggregationUnit>,
    /// Units behind the last of a shorter aggregate. The next longer one takes from the end, and so
    /// finds what stood behind its own last.
    surplus: Vec<H265AggregationUnit>,
}

/// Of bytes it tells how many there are.
impl core::fmt::Debug for Spare {
    fn fmt(&self, f: &mut core::fmt::Formatter<'_>) -> core::fmt::Result {
        use crate::support::Count;
        f.debug_struct("Spare")
            .field("data", &Count(self.data.len()))
            .field("others", &self.others)
            .field("second", &self.second)
            .field("surplus", &self.surplus)
            .finish()
    }
}

/// Whether none of these units is too long to be kept.
fn are_short(units: &[H265AggregationUnit]) -> bool {
    units.iter().all(|unit| unit.nal_unit().len() <= MOST_BYTES)
}

/// Keeps the memory of a few units; none where one is too long, or where so many stood there once
/// that the list is.
fn keep_few(units: &mut Vec<H265AggregationUnit>) {
    units.truncate(MOST_UNITS);
    if units.capacity() > MOST_ROOM || !are_short(units) {
        *units = Vec::new();
    }
}

impl Spare {
    /// No memory.
    pub fn new() -> Self {
        Spare {
            data: Vec::new(),
            others: Vec::new(),
            second: Vec::new(),
            surplus: Vec::new(),
        }
    }

    /// Puts the next packet's data in place.
    #[inline]
    pub(crate) fn put_data(&mut self, bytes: &[u8]) -> Result<(), AllocError> {
        self.data.clear();
        self.data.try_extend_from_slice(bytes)
    }

    /// Removes the data.
    #[inline]
    pub fn remove_data(&mut self) -> Vec<u8> {
        mem::take(&mut self.data)
    }

    /// Frees the memory of the data where it is more than is kept.
    #[inline]
    pub fn limit_data(&mut self) {
        if self.data.capacity() > MOST_DATA {
            self.data = Vec::new();
        }
    }

    /// Keeps the memory of a few of the further units, for the next aggregate.
    pub fn keep_others(&mut self) {
        keep_few(&mut self.others);
    }

    /// Puts a further unit of the next aggregate behind so many others.
    pub(crate) fn put_other(
        &mut self,
        count: usize,
        dond: Option<u8>,
        unit: &[u8],
    ) -> Result<(), AllocError> {
        if count < self.others.len() {
            return self.others[count].set(dond, unit);
        }
        let mut other = match self.surplus.pop() {
            Some(other) => other,
            None => H265AggregationUnit::empty(),
        };
        other.set(dond, unit)?;
        self.others.try_push(other)?;
        Ok(())
    }

    /// Leaves so many further units, and keeps the memory of a few of those behind them where there
    /// is room for it.
    pub(crate) fn limit_others(&mut self, count: usize) {
        while self.others.len() > count {
            let Some(unit) = self.others.pop() else {
                return;
            };
            if self.surplus.len() < MOST_UNITS && unit.nal_unit().len() <= MOST_BYTES {
                let _ = self.surplus.try_push(unit);
            }
        }
    }

    /// Removes the further units.
    pub fn remove_others(&mut self) -> Vec<H265AggregationUnit> {
        let second = mem::take(&mut self.second);
        mem::replace(&mut self.others, second)
    }

    /// Keeps the memory of what was shown before.
    pub fn keep(&mut self, before: H265Payload) {
        match before {
            H265Payload::H265AggregationPacket(packet) => {
                let (first, mut others) = packet.into_units();
                keep_few(&mut others);
                self.second = others;
                if let Some(unit) = first {
                    self.data = unit.into_buffer();
                }
            }
            other => {
                if let Some(buffer) = other.into_buffer() {
                    self.data = buffer;
                }
            }
        }
    }
}
