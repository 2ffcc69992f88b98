// Made from crates/h265_packets/src/paci_packing.rt by tools/to-rust.

//! How PACI packets are packed (RFC 7798, 4.4.4).

use crate::proved::h26x_core::H265NALUHeader;
use crate::proved::h265_packets::header::high_byte;
use crate::support::AllocError;
use crate::support::{AppendBytes, TryVec};
use alloc::vec::Vec;

/// The type of a PACI packet (RFC 7798, 4.4.4).
const PACI_TYPE: u8 = 50;

/// How many bytes a unit's header has (RFC 7798, 1.1.4).
pub(crate) const HEADER_SIZE: usize = 2;

/// How many bytes the word of the fields has (RFC 7798, 4.4.4).
const FIELDS_SIZE: usize = 2;

/// How many bytes of an extension are TSCI (RFC 7798, 4.5).
const TSCI_SIZE: usize = 3;

/// The fields of the PACI packet of this unit and this extension, with F0 set where the extension
/// is long enough for TSCI (RFC 7798, 4.4.4).
fn fields_of(unit: &[u8], phes: &[u8]) -> u16 {
    let header = H265NALUHeader::new(unit[0], unit[1]);
    let a = if header.f() { 1 << 15 } else { 0 };
    let f0 = if phes.len() >= TSCI_SIZE { 1 << 3 } else { 0 };
    a + (u16::from(header.nalu_type()) << 9) + ((phes.len() as u16) << 4) + f0
}

/// The PACI packet of this unit and this extension.
pub(crate) fn packet_of(unit: &[u8], phes: &[u8]) -> Result<Vec<u8>, AllocError> {
    let len = unit.len().saturating_add(FIELDS_SIZE + phes.len());
    let mut packet = Vec::try_with_room(len)?;
    packet.try_extend_from_slice(&[high_byte(0, PACI_TYPE, unit[0]), unit[1]])?;
    packet.try_extend_from_slice(&fields_of(unit, phes).to_be_bytes())?;
    packet.try_extend_from_slice(phes)?;
    packet.try_extend_from_slice(&unit[HEADER_SIZE..])?;
    Ok(packet)
}
