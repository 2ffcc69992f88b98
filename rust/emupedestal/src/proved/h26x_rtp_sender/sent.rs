// Made from crates/h26x_rtp_sender/src/sent.rt by tools/to-rust.

//! Packets that were sent and are held.

use crate::proved::h26x_rtp::{RtpDatagram, RtpExtension, RtpHeader};
use crate::proved::h26x_rtp_sender::payloads::Payloads;
use crate::proved::h26x_rtp_sender::unit::UnitHeader;
use crate::support::AllocError;
use crate::support::TrySlice;
use alloc::collections::VecDeque;
use alloc::vec::Vec;

/// A packet that was sent and is held.
pub struct SentPacket {
    pub marker: bool,
    pub payload_type: u8,
    pub sequence: u16,
    pub timestamp: u32,
    pub ssrc: u32,
    /// Of its extension, if it has one.
    pub profile: Option<u16>,
    pub extension: Vec<u8>,
    pub payload: Vec<u8>,
}

/// Of bytes it tells how many there are.
impl core::fmt::Debug for SentPacket {
    fn fmt(&self, f: &mut core::fmt::Formatter<'_>) -> core::fmt::Result {
        use crate::support::Count;
        f.debug_struct("SentPacket")
            .field("marker", &self.marker)
            .field("payload_type", &self.payload_type)
            .field("sequence", &self.sequence)
            .field("timestamp", &self.timestamp)
            .field("ssrc", &self.ssrc)
            .field("profile", &self.profile)
            .field("extension", &Count(self.extension.len()))
            .field("payload", &Count(self.payload.len()))
            .finish()
    }
}

/// The profile of an extension, and a copy of its bytes.
fn copy_extension(
    extension: Option<RtpExtension<'_>>,
) -> Result<(Option<u16>, Vec<u8>), AllocError> {
    match extension {
        Some(extension) => Ok((Some(extension.profile), extension.bytes.try_to_vec()?)),
        None => Ok((None, Vec::new())),
    }
}

impl SentPacket {
    /// A packet of an access unit.
    fn new(
        unit: UnitHeader<'_>,
        sequence: u16,
        marker: bool,
        payload: &[u8],
    ) -> Result<Self, AllocError> {
        let (profile, extension) = copy_extension(unit.extension)?;
        Ok(SentPacket {
            marker,
            payload_type: unit.payload_type,
            sequence,
            timestamp: unit.timestamp,
            ssrc: unit.ssrc,
            profile,
            extension,
            payload: payload.try_to_vec()?,
        })
    }

    /// Its extension.
    fn extension(&self) -> Option<RtpExtension<'_>> {
        match self.profile {
            Some(profile) => Some(RtpExtension {
                profile,
                bytes: &self.extension,
            }),
            None => None,
        }
    }

    /// The packet.
    pub(crate) fn datagram(&self) -> RtpDatagram<'_> {
        let header = RtpHeader {
            marker: self.marker,
            payload_type: self.payload_type,
            sequence: self.sequence,
            timestamp: self.timestamp,
            ssrc: self.ssrc,
            csrcs: &[],
            extension: self.extension(),
        };
        RtpDatagram {
            header,
            payload: &self.payload,
            padding: &[],
        }
    }
}

/// The packets of an access unit, of which the first has this number, and whose payloads end at these
/// places of memory.
pub(crate) fn unit_packets(
    unit: UnitHeader<'_>,
    first: u16,
    headroom: usize,
    ends: &[usize],
    bytes: &[u8],
) -> Result<VecDeque<SentPacket>, AllocError> {
    let mut made = VecDeque::new();
    made.try_reserve(ends.len())?;
    let mut sequence = first;
    let mut left = ends.len();
    for payload in Payloads::new(headroom, ends, bytes) {
        let packet = SentPacket::new(unit, sequence, left == 1, payload)?;
        made.push_back(packet);
        sequence = sequence.wrapping_add(1);
        left -= 1;
    }
    Ok(made)
}
