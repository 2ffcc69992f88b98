// Made from crates/h26x_packetizer/src/pieces.rt by tools/to-rust.

//! Units behind their lengths, one behind the other, as an aggregate has them.

use crate::proved::h26x_payload::copy_bytes;
use crate::support::AppendBytes;
use alloc::vec::Vec;

/// How many bytes units take behind their lengths of two bytes, with `gap` before the length of each
/// but the first; the greatest number where they are more.
pub(crate) fn pieces_len(gap: &[u8], units: &[&[u8]]) -> usize {
    let mut len: usize = 0;
    let mut lead: &[u8] = &[];
    for unit in units {
        len = len
            .saturating_add(lead.len())
            .saturating_add(2)
            .saturating_add(unit.len());
        lead = gap;
    }
    len
}

/// Copies a unit behind its length, and behind these bytes, to a place of memory; the place behind it.
#[inline]
fn copy_piece(lead: &[u8], unit: &[u8], place: usize, to: &mut [u8]) -> usize {
    let len = unit.len();
    let length = [(len / 256 % 256) as u8, (len % 256) as u8];
    let behind_lead = copy_bytes(lead, place, to);
    let behind_length = copy_bytes(&length, behind_lead, to);
    copy_bytes(unit, behind_length, to)
}

/// Copies units behind their lengths to memory of their length; `gap` goes before the length of each
/// but the first.
pub(crate) fn copy_pieces(gap: &[u8], units: &[&[u8]], to: &mut [u8]) {
    let mut place = 0;
    let mut lead: &[u8] = &[];
    for unit in units {
        place = copy_piece(lead, unit, place, to);
        lead = gap;
    }
}

/// Writes bytes, where there is room for them.
#[inline(always)]
pub(crate) fn put_bytes(from: &[u8], bytes: &mut Vec<u8>) {
    if !from.is_empty() {
        bytes.append_bytes(from);
    }
}

/// Writes a unit behind its length, and behind these bytes, where there is room for them.
#[inline(always)]
fn put_piece(lead: &[u8], unit: &[u8], bytes: &mut Vec<u8>) {
    let unit_len = unit.len();
    let length = [(unit_len / 256 % 256) as u8, (unit_len % 256) as u8];
    put_bytes(lead, bytes);
    bytes.append_bytes(&length);
    bytes.append_bytes(unit);
}

/// Writes units behind their lengths, where there is room for them; `gap` goes before the length of
/// each but the first.
#[inline]
pub(crate) fn put_pieces(gap: &[u8], units: &[&[u8]], bytes: &mut Vec<u8>) {
    let mut lead: &[u8] = &[];
    for unit in units {
        put_piece(lead, unit, bytes);
        lead = gap;
    }
}
