// Made from crates/h265_packets/src/single.rt by tools/to-rust.

//! Single NAL unit packets (RFC 7798, 4.4.1).

use crate::proved::h26x_core::{H265NALUHeader, PacketError};
use crate::support::TrySlice;
use alloc::vec::Vec;
use core::mem;

/// A single NAL unit packet (RFC 7798, 4.4.1): the unit's header, DONL where it was read, and what
/// stands behind them.
pub struct H265SingleNALUnitPacket {
    header: H265NALUHeader,
    donl: Option<u16>,
    payload: Vec<u8>,
    has_donl: bool,
}

/// Of bytes it tells how many there are.
impl core::fmt::Debug for H265SingleNALUnitPacket {
    fn fmt(&self, f: &mut core::fmt::Formatter<'_>) -> core::fmt::Result {
        use crate::support::Count;
        f.debug_struct("H265SingleNALUnitPacket")
            .field("header", &self.header)
            .field("donl", &self.donl)
            .field("payload", &Count(self.payload.len()))
            .field("has_donl", &self.has_donl)
            .finish()
    }
}

impl H265SingleNALUnitPacket {
    /// The packet of these parts (RFC 7798, 4.4.1). `has_donl` is the mark that `with_donl` sets.
    #[inline]
    pub(crate) fn of(
        header: H265NALUHeader,
        donl: Option<u16>,
        payload: Vec<u8>,
        has_donl: bool,
    ) -> Self {
        H265SingleNALUnitPacket {
            header,
            donl,
            payload,
            has_donl,
        }
    }

    /// A packet whose header is 0, without DONL or payload, and not marked. It takes no memory.
    pub(crate) fn empty() -> Self {
        H265SingleNALUnitPacket {
            header: H265NALUHeader(0),
            donl: None,
            payload: Vec::new(),
            has_donl: false,
        }
    }

    /// Marks the packet as one with DONL (RFC 7798, 4.4.1), or as one without. Equality alone tells
    /// the mark; the parts stay as they are.
    pub fn with_donl(&mut self, value: bool) {
        self.has_donl = value;
    }

    /// The header (RFC 7798, 1.1.4), which is the unit's own.
    pub fn payload_header(&self) -> H265NALUHeader {
        self.header
    }

    /// DONL, the low 16 bits of the unit's decoding order number, where it was read (RFC 7798,
    /// 4.4.1).
    pub fn donl(&self) -> Option<u16> {
        self.donl
    }

    /// The unit without its header (RFC 7798, 4.4.1).
    pub fn payload(&self) -> &[u8] {
        self.payload.as_slice()
    }

    /// The same packet again. `OutOfMemory` is its only error.
    pub fn try_clone(&self) -> Result<Self, PacketError> {
        Ok(H265SingleNALUnitPacket {
            header: self.header,
            donl: self.donl,
            payload: self.payload.try_to_vec()?,
            has_donl: self.has_donl,
        })
    }

    /// The packet of these parts in the place of this one; the payloads are exchanged.
    #[inline]
    pub(crate) fn set(
        &mut self,
        header: H265NALUHeader,
        donl: Option<u16>,
        payload: &mut Vec<u8>,
        has_donl: bool,
    ) {
        self.header = header;
        self.donl = donl;
        mem::swap(&mut self.payload, payload);
        self.has_donl = has_donl;
    }

    /// The buffer of the payload, to be used again.
    pub(crate) fn into_buffer(self) -> Vec<u8> {
        self.payload
    }
}

impl PartialEq for H265SingleNALUnitPacket {
    fn eq(&self, other: &Self) -> bool {
        self.header == other.header
            && self.donl == other.donl
            && self.payload == other.payload
            && self.has_donl == other.has_donl
    }
}

impl Eq for H265SingleNALUnitPacket {}
