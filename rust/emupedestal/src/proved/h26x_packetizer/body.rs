// Made from crates/h26x_packetizer/src/body.rt by tools/to-rust.

//! What stands behind a packet's header and its number.

use crate::proved::h26x_packetizer::pieces::{copy_pieces, pieces_len, put_bytes, put_pieces};
use crate::proved::h26x_payload::Sets;
use crate::support::AppendBytes;
use alloc::vec::Vec;

/// What stands behind a packet's header and its number.
#[derive(Clone, Copy)]
pub enum Body<'a> {
    /// A unit without its header, or a part of it.
    Data(&'a [u8]),
    /// Sets, each behind its length; `gap` goes before the length of each but the first.
    Sets { sets: Sets<'a>, gap: &'a [u8] },
    /// Units, each behind its length; `gap` goes before the length of each but the first.
    Units {
        units: &'a [&'a [u8]],
        gap: &'a [u8],
    },
}

impl<'a> Body<'a> {
    /// How many bytes it has; the greatest number where they are more.
    #[inline(always)]
    pub(crate) fn len(self) -> usize {
        match self {
            Body::Data(data) => data.len(),
            Body::Sets { sets, gap } => sets.len_with(gap),
            Body::Units { units, gap } => pieces_len(gap, units),
        }
    }

    /// Writes it, where there is room for it.
    #[inline(always)]
    pub(crate) fn put(self, bytes: &mut Vec<u8>) {
        match self {
            Body::Data(data) => bytes.append_bytes(data),
            Body::Sets { sets, gap } => sets.put(gap, bytes),
            Body::Units { units, gap } => put_pieces(gap, units, bytes),
        }
    }

    /// Copies it to memory of its length.
    #[inline(always)]
    pub(crate) fn copy_to(self, to: &mut [u8]) {
        match self {
            Body::Data(data) => to.copy_from_slice(data),
            Body::Sets { sets, gap } => sets.copy_to(gap, to),
            Body::Units { units, gap } => copy_pieces(gap, units, to),
        }
    }
}

/// Writes a packet of these parts behind its headroom, where there is room for it.
#[inline(always)]
pub(crate) fn put_packet(
    headroom: usize,
    header: &[u8],
    donl: &[u8],
    body: Body<'_>,
    bytes: &mut Vec<u8>,
) {
    if headroom > 0 {
        bytes.resize(bytes.len() + headroom, 0);
    }
    put_bytes(header, bytes);
    put_bytes(donl, bytes);
    body.put(bytes);
}
