// Made from crates/h265_packets/src/paci.rt by tools/to-rust.

//! PACI packets (RFC 7798, 4.4.4).

use crate::proved::h26x_core::{H265NALUHeader, H265TSCI, PacketError};
use crate::proved::h265_packets::header::{paci_size, paci_type};
use crate::proved::h265_packets::paci_packing::{HEADER_SIZE, packet_of};
use crate::support::{AppendBytes, TrySlice};
use alloc::vec::Vec;
use core::mem;

/// The most bytes that an extension has, since PHSsize has five bits (RFC 7798, 4.4.4).
const MAX_PHES_SIZE: usize = 31;

/// A PACI packet (RFC 7798, 4.4.4): its header, the word of its fields, the extension of its
/// header (PHES), and what stands behind that.
pub struct H265PACIPacket {
    header: H265NALUHeader,
    fields: u16,
    /// The extension, as long as the fields tell, and then the payload.
    bytes: Vec<u8>,
}

/// Of bytes it tells how many there are.
impl core::fmt::Debug for H265PACIPacket {
    fn fmt(&self, f: &mut core::fmt::Formatter<'_>) -> core::fmt::Result {
        use crate::support::Count;
        f.debug_struct("H265PACIPacket")
            .field("header", &self.header)
            .field("fields", &self.fields)
            .field("bytes", &Count(self.bytes.len()))
            .finish()
    }
}

impl H265PACIPacket {
    /// The packet of this header, this word of fields, and its extension and payload, one behind
    /// the other (RFC 7798, 4.4.4).
    pub(crate) fn of(header: H265NALUHeader, fields: u16, bytes: Vec<u8>) -> Self {
        H265PACIPacket {
            header,
            fields,
            bytes,
        }
    }

    /// A packet whose header and fields are 0, without extension or payload. It takes no memory.
    pub(crate) fn empty() -> Self {
        H265PACIPacket {
            header: H265NALUHeader(0),
            fields: 0,
            bytes: Vec::new(),
        }
    }

    /// The PACI packet of a NAL unit and an extension (RFC 7798, 4.4.4): a header of type 50 with
    /// the unit's layer and temporal id and F clear; A as the unit's F, cType as its type, PHSsize,
    /// and F0 set where the extension has three bytes or more, which are then TSCI (4.5); the
    /// extension; the unit without its header. `buf` then holds the same bytes and nothing else.
    ///
    /// A refusal leaves `buf`:
    /// - `ErrShortPacket`: the unit has under two bytes;
    /// - `ErrH265PACIPHESTooLong`: else, the extension has over 31 bytes;
    /// - `OutOfMemory`.
    pub fn packetize(
        inner_nalu: &[u8],
        phes: &[u8],
        buf: &mut Vec<u8>,
    ) -> Result<Vec<u8>, PacketError> {
        if inner_nalu.len() < HEADER_SIZE {
            return Err(PacketError::ErrShortPacket);
        }
        if phes.len() > MAX_PHES_SIZE {
            return Err(PacketError::ErrH265PACIPHESTooLong);
        }
        let packet = packet_of(inner_nalu, phes)?;
        buf.try_reserve(packet.len().saturating_sub(buf.len()))?;
        buf.clear();
        buf.append_bytes(&packet);
        Ok(packet)
    }

    /// The packet's header, of type 50 in a packet that was read (RFC 7798, 4.4.4).
    pub fn payload_header(&self) -> H265NALUHeader {
        self.header
    }

    /// The word of A, cType, PHSsize, F0, F1, F2 and Y, from the highest bit down (RFC 7798, 4.4.4).
    pub fn fields(&self) -> u16 {
        self.fields
    }

    /// A, the bit F of the unit within (RFC 7798, 4.4.4).
    pub fn a(&self) -> bool {
        self.fields >> 15 != 0
    }

    /// cType, the type of the unit within, 0 to 63 (RFC 7798, 4.4.4).
    pub fn ctype(&self) -> u8 {
        paci_type(self.fields)
    }

    /// PHSsize, how many bytes the extension has, 0 to 31 (RFC 7798, 4.4.4).
    pub fn phs_size(&self) -> u8 {
        paci_size(self.fields)
    }

    /// F0, which tells that the extension holds TSCI (RFC 7798, 4.4.4 and 4.5).
    pub fn f0(&self) -> bool {
        self.fields >> 3 & 1 != 0
    }

    /// F1, which is reserved (RFC 7798, 4.4.4).
    pub fn f1(&self) -> bool {
        self.fields >> 2 & 1 != 0
    }

    /// F2, which is reserved (RFC 7798, 4.4.4).
    pub fn f2(&self) -> bool {
        self.fields >> 1 & 1 != 0
    }

    /// Y, which is reserved (RFC 7798, 4.4.4).
    pub fn y(&self) -> bool {
        self.fields & 1 != 0
    }

    /// PHES, the extension of the header: as many bytes as PHSsize says (RFC 7798, 4.4.4).
    pub fn phes(&self) -> &[u8] {
        &self.bytes[..usize::from(self.phs_size())]
    }

    /// What stands behind the extension: the unit within, without its header (RFC 7798, 4.4.4).
    pub fn payload(&self) -> &[u8] {
        &self.bytes[usize::from(self.phs_size())..]
    }

    /// TSCI, where F0 is set and the extension has three bytes or more: its first three bytes, at
    /// bits 31 to 8 of the word (RFC 7798, 4.5).
    pub fn tsci(&self) -> Option<H265TSCI> {
        match self.phes() {
            [a, b, c, ..] if self.f0() => Some(H265TSCI(u32::from_be_bytes([*a, *b, *c, 0]))),
            _ => None,
        }
    }

    /// The same packet again. `OutOfMemory` is its only error.
    pub fn try_clone(&self) -> Result<Self, PacketError> {
        Ok(H265PACIPacket {
            header: self.header,
            fields: self.fields,
            bytes: self.bytes.try_to_vec()?,
        })
    }

    /// The packet of these parts in the place of this one; the bytes are exchanged.
    pub(crate) fn set(&mut self, header: H265NALUHeader, fields: u16, bytes: &mut Vec<u8>) {
        self.header = header;
        self.fields = fields;
        mem::swap(&mut self.bytes, bytes);
    }

    /// The buffer of the extension and the payload, to be used again.
    pub(crate) fn into_buffer(self) -> Vec<u8> {
        self.bytes
    }
}

impl PartialEq for H265PACIPacket {
    fn eq(&self, other: &Self) -> bool {
        self.header == other.header
            && self.fields == other.fields
            && self.phes() == other.phes()
            && self.payload() == other.payload()
    }
}

impl Eq for H265PACIPacket {}
