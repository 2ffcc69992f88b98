// Made from crates/h26x_payload/src/sets.rt by tools/to-rust.

//! Parameter sets that go before a unit.

use crate::proved::h26x_payload::copy::copy_bytes;
use alloc::vec::Vec;

/// Perhaps a VPS, and an SPS and a PPS, for one aggregate (RFC 6184, 5.7.1; RFC 7798, 4.4.2; RFC
/// 9328, 4.3.2).
#[derive(Clone, Copy)]
pub struct Sets<'a> {
    pub vps: Option<&'a [u8]>,
    pub sps: &'a [u8],
    pub pps: &'a [u8],
}

/// The bytes of a set behind its length, wide enough for any sum of a few.
fn piece_len(set: &[u8]) -> u128 {
    2 + set.len() as u128
}

/// Copies a set behind its length to a place of memory; the place behind it.
fn copy_piece(set: &[u8], place: usize, to: &mut [u8]) -> usize {
    let len = set.len();
    let length = [(len / 256 % 256) as u8, (len % 256) as u8];
    let behind = copy_bytes(&length, place, to);
    copy_bytes(set, behind, to)
}

impl<'a> Sets<'a> {
    /// How many there are.
    pub fn count(self) -> u16 {
        if self.vps.is_some() { 3 } else { 2 }
    }

    /// The bytes of the sets behind their lengths, of two bytes each.
    pub fn size(self) -> u128 {
        match self.vps {
            Some(vps) => piece_len(vps) + piece_len(self.sps) + piece_len(self.pps),
            None => piece_len(self.sps) + piece_len(self.pps),
        }
    }

    /// Whether two bytes hold the length of each.
    pub fn are_short(self) -> bool {
        match self.vps {
            Some(vps) => vps.len() < 65536 && self.sps.len() < 65536 && self.pps.len() < 65536,
            None => self.sps.len() < 65536 && self.pps.len() < 65536,
        }
    }

    /// The bytes of the sets behind their lengths, with `gap` bytes before the length of each but
    /// the first; the greatest number where they are more.
    #[inline]
    pub fn len_with(self, gap: &[u8]) -> usize {
        let next = gap.len().saturating_add(2);
        let first = match self.vps {
            Some(vps) => vps.len().saturating_add(2).saturating_add(next),
            None => 2,
        };
        first
            .saturating_add(self.sps.len())
            .saturating_add(next)
            .saturating_add(self.pps.len())
    }

    /// Copies each set behind its length to memory of their length; `gap` goes before the length of
    /// each but the first.
    #[inline]
    pub(crate) fn copy_to(self, gap: &[u8], to: &mut [u8]) {
        let sps = match self.vps {
            Some(vps) => {
                let place = copy_piece(vps, 0, to);
                copy_bytes(gap, place, to)
            }
            None => 0,
        };
        let place = copy_piece(self.sps, sps, to);
        let pps = copy_bytes(gap, place, to);
        copy_piece(self.pps, pps, to);
    }

    /// Writes each set behind its length, where there is room for them; `gap` goes before the length
    /// of each but the first.
    #[inline]
    pub(crate) fn put(self, gap: &[u8], bytes: &mut Vec<u8>) {
        let start = bytes.len();
        bytes.resize(start + self.len_with(gap), 0);
        self.copy_to(gap, &mut bytes[start..]);
    }
}
