// Made from crates/h264_payload/src/stap.rt by tools/to-rust.

//! The units of a STAP-A (RFC 6184, 5.7.1).

use crate::proved::h26x_core::{PacketError, STAPA_NALU_LENGTH_SIZE, first_piece};
use crate::proved::h26x_depacketizer::{Aggregate, PREFIX_SIZE};
use crate::proved::h264_payload::codec::H264;

impl Aggregate for H264 {
    #[inline(always)]
    fn first_unit(self, bytes: &[u8]) -> Option<(&[u8], &[u8])> {
        let mut rest = bytes;
        while rest.len() >= STAPA_NALU_LENGTH_SIZE {
            match first_piece(rest) {
                Ok((unit, behind)) => {
                    if !unit.is_empty() {
                        return Some((unit, behind));
                    }
                    rest = behind;
                }
                Err(_) => return None,
            }
        }
        None
    }
}

/// How many bytes the units of a STAP-A take where they are written, at most `usize::MAX`; one with
/// a length that passes its end is refused.
#[inline(always)]
pub fn check_stap(bytes: &[u8]) -> Result<usize, PacketError> {
    let mut size: usize = 0;
    let mut rest = bytes;
    while rest.len() >= STAPA_NALU_LENGTH_SIZE {
        match first_piece(rest) {
            Ok((unit, behind)) => {
                if !unit.is_empty() {
                    size = size.saturating_add(unit.len() + PREFIX_SIZE);
                }
                rest = behind;
            }
            Err(needed) => {
                let left = rest.len() - STAPA_NALU_LENGTH_SIZE;
                return Err(PacketError::StapASizeLargerThanBuffer(needed, left));
            }
        }
    }
    Ok(size)
}
