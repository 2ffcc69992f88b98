// Made from crates/h26x_rtp_sender/src/unit.rt by tools/to-rust.

//! What the headers of an access unit's packets have in common.

use crate::proved::h26x_rtp::{RtpExtension, RtpHeader, RtpWriteError};

/// How many bytes a header may have here: an extension of 256 bytes.
const LONGEST_HEADER: usize = 272;

/// What the headers of an access unit's packets have in common (RFC 3550, 5.1).
#[derive(Debug, Clone, Copy)]
pub(crate) struct UnitHeader<'a> {
    pub payload_type: u8,
    pub timestamp: u32,
    pub ssrc: u32,
    pub extension: Option<RtpExtension<'a>>,
}

impl<'a> UnitHeader<'a> {
    /// The header of a packet.
    fn header(self, sequence: u16, marker: bool) -> RtpHeader<'a> {
        RtpHeader {
            marker,
            payload_type: self.payload_type,
            sequence,
            timestamp: self.timestamp,
            ssrc: self.ssrc,
            csrcs: &[],
            extension: self.extension,
        }
    }

    /// Where each header begins in a headroom of so many bytes, at whose end it stands, or why none is
    /// written.
    pub(crate) fn test(self, headroom: usize) -> Result<usize, RtpWriteError> {
        let mut memory = [0; LONGEST_HEADER];
        let place = headroom.min(LONGEST_HEADER);
        let start = self
            .header(0, false)
            .write_before(false, place, &mut memory)?;
        Ok(start + (headroom - place))
    }

    /// Writes the header of a packet right before its place in memory; where it begins.
    fn put_before(self, sequence: u16, marker: bool, place: usize, memory: &mut [u8]) -> usize {
        self.header(sequence, marker)
            .write_before(false, place, memory)
            .unwrap()
    }

    /// Writes the headers of all packets that end at these places of memory, as `put_all`.
    pub(crate) fn put_all_in_memory(
        self,
        first: u16,
        headroom: usize,
        ends: &[usize],
        memory: &mut [u8],
    ) {
        let mut sequence = first;
        let mut start = 0;
        let mut left = ends.len();
        for end in ends.iter() {
            self.put_before(sequence, left == 1, start + headroom, memory);
            sequence = sequence.wrapping_add(1);
            start = *end;
            left -= 1;
        }
    }
}
