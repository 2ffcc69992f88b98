// Made from crates/h265_payload/src/lib.rt by tools/to-rust.

//! The H.265 payload format (RFC 7798): a packetizer, a depacketizer that shows the packet that it
//! accepted last, PACI packets and the detection of keyframes, with the format's definitions and
//! their laws.
mod aggregate;
mod codec;
mod depacketizer;
mod detect;
mod every;
mod lowest_header;
mod packet;
mod packetizer;
mod sending;
mod show;
mod shows;
mod spare;

pub use crate::proved::h26x_core::ANNEXB_NALUSTART_CODE;
pub use crate::proved::h26x_packetizer::{
    BufferMemory, EveryUnitError, PacketBuffer, Packing, RefusedUnit, WhyRefused,
};
pub use crate::proved::h265_packets::{
    H265AggregationPacket, H265AggregationUnit, H265AggregationUnitFirst,
    H265FragmentationUnitPacket, H265PACIPacket, H265Payload, H265SingleNALUnitPacket,
};
pub use codec::{H265, H265Sending};
pub use depacketizer::H265Depacketizer;
pub use detect::detect_h265_keyframe;
pub use lowest_header::set_lowest_header;
pub use packetizer::H265Packetizer;
