// Made from crates/h265_packets/src/payload.rt by tools/to-rust.

//! Packets as a depacketizer shows them (RFC 7798, 4.4).

use crate::proved::h26x_core::PacketError;
use crate::proved::h265_packets::aggregation::H265AggregationPacket;
use crate::proved::h265_packets::fragmentation::H265FragmentationUnitPacket;
use crate::proved::h265_packets::paci::H265PACIPacket;
use crate::proved::h265_packets::single::H265SingleNALUnitPacket;
use alloc::vec::Vec;

/// A packet that was read (RFC 7798, 4.4).
#[derive(Debug)]
pub enum H265Payload {
    /// A single NAL unit packet (RFC 7798, 4.4.1).
    H265SingleNALUnitPacket(H265SingleNALUnitPacket),
    /// A fragmentation unit (RFC 7798, 4.4.3).
    H265FragmentationUnitPacket(H265FragmentationUnitPacket),
    /// An aggregation packet (RFC 7798, 4.4.2).
    H265AggregationPacket(H265AggregationPacket),
    /// A PACI packet (RFC 7798, 4.4.4).
    H265PACIPacket(H265PACIPacket),
}

impl H265Payload {
    /// The empty single NAL unit packet (RFC 7798, 4.4.1). It takes no memory.
    pub(crate) fn empty() -> Self {
        H265Payload::H265SingleNALUnitPacket(H265SingleNALUnitPacket::empty())
    }

    /// The same packet again. `OutOfMemory` is its only error.
    pub fn try_clone(&self) -> Result<Self, PacketError> {
        Ok(match self {
            H265Payload::H265SingleNALUnitPacket(packet) => {
                H265Payload::H265SingleNALUnitPacket(packet.try_clone()?)
            }
            H265Payload::H265FragmentationUnitPacket(packet) => {
                H265Payload::H265FragmentationUnitPacket(packet.try_clone()?)
            }
            H265Payload::H265AggregationPacket(packet) => {
                H265Payload::H265AggregationPacket(packet.try_clone()?)
            }
            H265Payload::H265PACIPacket(packet) => H265Payload::H265PACIPacket(packet.try_clone()?),
        })
    }

    /// The buffer of the packet's data, to be used again, or of an aggregation packet's first unit.
    pub(crate) fn into_buffer(self) -> Option<Vec<u8>> {
        match self {
            H265Payload::H265SingleNALUnitPacket(packet) => Some(packet.into_buffer()),
            H265Payload::H265FragmentationUnitPacket(packet) => Some(packet.into_buffer()),
            H265Payload::H265AggregationPacket(packet) => packet.into_buffer(),
            H265Payload::H265PACIPacket(packet) => Some(packet.into_buffer()),
        }
    }
}

impl PartialEq for H265Payload {
    fn eq(&self, other: &Self) -> bool {
        match (self, other) {
            (
                H265Payload::H265SingleNALUnitPacket(one),
                H265Payload::H265SingleNALUnitPacket(two),
            ) => one == two,
            (
                H265Payload::H265FragmentationUnitPacket(one),
                H265Payload::H265FragmentationUnitPacket(two),
            ) => one == two,
            (H265Payload::H265AggregationPacket(one), H265Payload::H265AggregationPacket(two)) => {
                one == two
            }
            (H265Payload::H265PACIPacket(one), H265Payload::H265PACIPacket(two)) => one == two,
            _ => false,
        }
    }
}

impl Eq for H265Payload {}
