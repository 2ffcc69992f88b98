// Made from crates/h266_payload/src/lib.rt by tools/to-rust.

//! The H.266 payload format (RFC 9328): a packetizer, a depacketizer and the detection of
//! keyframes, with the format's definitions and their laws.
mod aggregate;
mod codec;
mod depacketizer;
mod detect;
mod every;
mod packet;
mod packetizer;

pub use crate::proved::h26x_core::ANNEXB_NALUSTART_CODE;
pub use crate::proved::h26x_packetizer::{
    BufferMemory, EveryUnitError, PacketBuffer, Packing, RefusedUnit, WhyRefused,
};
pub use codec::H266;
pub use depacketizer::H266Depacketizer;
pub use detect::detect_h266_keyframe;
pub use packetizer::H266Packetizer;
