// Made from crates/h265_packets/src/fragmentation.rt by tools/to-rust.

//! Fragmentation units (RFC 7798, 4.4.3).

use crate::proved::h26x_core::{H265FragmentationUnitHeader, H265NALUHeader, PacketError};
use crate::support::TrySlice;
use alloc::vec::Vec;
use core::mem;

/// A fragmentation unit (RFC 7798, 4.4.3): the packet's header, the byte of S, E and the unit's
/// type, DONL where it was read, and what stands behind them.
pub struct H265FragmentationUnitPacket {
    header: H265NALUHeader,
    fu_header: H265FragmentationUnitHeader,
    donl: Option<u16>,
    payload: Vec<u8>,
    has_donl: bool,
}

/// Of bytes it tells how many there are.
impl core::fmt::Debug for H265FragmentationUnitPacket {
    fn fmt(&self, f: &mut core::fmt::Formatter<'_>) -> core::fmt::Result {
        use crate::support::Count;
        f.debug_struct("H265FragmentationUnitPacket")
            .field("header", &self.header)
            .field("fu_header", &self.fu_header)
            .field("donl", &self.donl)
            .field("payload", &Count(self.payload.len()))
            .field("has_donl", &self.has_donl)
            .finish()
    }
}

impl H265FragmentationUnitPacket {
    /// The packet of these parts (RFC 7798, 4.4.3). `has_donl` is the mark that `with_donl` sets.
    #[inline]
    pub(crate) fn of(
        header: H265NALUHeader,
        fu_header: H265FragmentationUnitHeader,
        donl: Option<u16>,
        payload: Vec<u8>,
        has_donl: bool,
    ) -> Self {
        H265FragmentationUnitPacket {
            header,
            fu_header,
            donl,
            payload,
            has_donl,
        }
    }

    /// A packet whose headers are 0, without DONL or payload, and not marked. It takes no memory.
    pub(crate) fn empty() -> Self {
        H265FragmentationUnitPacket {
            header: H265NALUHeader(0),
            fu_header: H265FragmentationUnitHeader(0),
            donl: None,
            payload: Vec::new(),
            has_donl: false,
        }
    }

    /// Marks the packet as one with DONL (RFC 7798, 4.4.3), or as one without. Equality alone tells
    /// the mark; the parts stay as they are.
    pub fn with_donl(&mut self, value: bool) {
        self.has_donl = value;
    }

    /// The packet's header, of type 49 in a packet that was read (RFC 7798, 4.4.3).
    pub fn payload_header(&self) -> H265NALUHeader {
        self.header
    }

    /// S, E and the unit's type (RFC 7798, 4.4.3).
    pub fn fu_header(&self) -> H265FragmentationUnitHeader {
        self.fu_header
    }

    /// DONL, the low 16 bits of the unit's decoding order number, where it was read: in a first
    /// fragment alone (RFC 7798, 4.4.3).
    pub fn donl(&self) -> Option<u16> {
        self.donl
    }

    /// The fragment's data (RFC 7798, 4.4.3).
    pub fn payload(&self) -> &[u8] {
        self.payload.as_slice()
    }

    /// The same packet again. `OutOfMemory` is its only error.
    pub fn try_clone(&self) -> Result<Self, PacketError> {
        Ok(H265FragmentationUnitPacket {
            header: self.header,
            fu_header: self.fu_header,
            donl: self.donl,
            payload: self.payload.try_to_vec()?,
            has_donl: self.has_donl,
        })
    }

    /// The packet of these parts in the place of this one; the payloads are exchanged.
    #[inline]
    pub(crate) fn set(
        &mut self,
        header: H265NALUHeader,
        fu_header: H265FragmentationUnitHeader,
        donl: Option<u16>,
        payload: &mut Vec<u8>,
        has_donl: bool,
    ) {
        self.header = header;
        self.fu_header = fu_header;
        self.donl = donl;
        mem::swap(&mut self.payload, payload);
        self.has_donl = has_donl;
    }

    /// The buffer of the data, to be used again.
    pub(crate) fn into_buffer(self) -> Vec<u8> {
        self.payload
    }
}

impl PartialEq for H265FragmentationUnitPacket {
    fn eq(&self, other: &Self) -> bool {
        self.header == other.header
            && self.fu_header == other.fu_header
            && self.donl == other.donl
            && self.payload == other.payload
            && self.has_donl == other.has_donl
    }
}

impl Eq for H265FragmentationUnitPacket {}
