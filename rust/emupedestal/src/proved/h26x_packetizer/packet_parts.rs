// Made from crates/h26x_packetizer/src/packet_parts.rt by tools/to-rust.

//! Packets as the parts that they are made of, before they are copied anywhere.

use crate::proved::h26x_packetizer::body::Body;
use crate::proved::h26x_packetizer::placement::{PacketsSize, Placement, place_one};
use crate::proved::h26x_packetizer::sink::PacketSink;
use crate::proved::h26x_payload::copy_bytes;
use crate::support::AllocError;
use crate::support::TryVec;
use alloc::vec::Vec;

/// How many bytes a packet's header and number have at most: those of a fragment with both.
const LONGEST_HEADER: usize = 5;

/// How many packets a list of parts takes room for at first.
const FIRST_PARTS: usize = 8;

/// A packet as its parts: its header and number, and what stands behind these, which is borrowed.
pub struct PacketParts<'a> {
    header: [u8; 5],
    header_len: usize,
    body: Body<'a>,
    // How many bytes it has: that is asked twice, and an aggregate has to count its units.
    len: usize,
}

impl<'a> PacketParts<'a> {
    /// A packet of these parts, one behind the other.
    #[inline(always)]
    fn new(header: &[u8], donl: &[u8], body: Body<'a>) -> Self {
        let mut bytes = [0; LONGEST_HEADER];
        let behind = copy_bytes(header, 0, &mut bytes);
        let header_len = copy_bytes(donl, behind, &mut bytes);
        PacketParts {
            header: bytes,
            header_len,
            len: body.len().saturating_add(header_len),
            body,
        }
    }

    /// How many bytes it has; the greatest number where they are more.
    pub(crate) fn len(&self) -> usize {
        self.len
    }

    /// Copies it to memory of its length.
    #[inline(always)]
    pub(crate) fn copy_to(&self, to: &mut [u8]) {
        if self.header_len > 0 {
            to[..self.header_len].copy_from_slice(&self.header[..self.header_len]);
        }
        self.body.copy_to(&mut to[self.header_len..]);
    }
}

/// Room for one packet alone, which takes no memory: a second one is refused.
pub(crate) struct OnePacket<'a> {
    packet: Option<PacketParts<'a>>,
}

impl<'a> OnePacket<'a> {
    /// None yet.
    #[inline(always)]
    pub(crate) fn new() -> Self {
        OnePacket { packet: None }
    }

    /// Copies it to the front of memory where it fits.
    #[inline(always)]
    pub(crate) fn place(&self, headroom: usize, to: &mut [u8], ends: &mut [usize]) -> Placement {
        match &self.packet {
            Some(packet) => place_one(packet, headroom, to, ends),
            None => Placement::Placed(PacketsSize {
                packets: 0,
                bytes: 0,
            }),
        }
    }
}

impl<'a> PacketSink<'a> for OnePacket<'a> {
    #[inline(always)]
    fn try_push(&mut self, header: &[u8], donl: &[u8], body: Body<'a>) -> Result<(), AllocError> {
        if self.packet.is_some() {
            return Err(AllocError);
        }
        self.packet = Some(PacketParts::new(header, donl, body));
        Ok(())
    }

    /// None: it has room for its one.
    #[inline(always)]
    fn try_reserve(&mut self, _count: usize) -> Result<(), AllocError> {
        Ok(())
    }
}

impl<'a> PacketSink<'a> for Vec<PacketParts<'a>> {
    #[inline(always)]
    fn try_push(&mut self, header: &[u8], donl: &[u8], body: Body<'a>) -> Result<(), AllocError> {
        TryVec::try_push(self, PacketParts::new(header, donl, body))?;
        Ok(())
    }

    #[inline(always)]
    fn try_reserve(&mut self, count: usize) -> Result<(), AllocError> {
        let least = if self.is_empty() { FIRST_PARTS } else { 0 };
        crate::support::try_reserve(self, count.max(least))
    }
}
