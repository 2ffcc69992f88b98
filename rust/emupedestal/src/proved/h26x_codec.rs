// Made from crates/h26x_codec/src/lib.rt by tools/to-rust.

//! Which codecs there are, and the packetizers and depacketizers of a codec that is chosen when they
//! are made, one type for all codecs.
mod any_depacketizer;
#[allow(dead_code, reason = "the C library has it")]
mod any_packetizer;
mod any_payload_depacketizer;
mod codec;
mod every_unit;
mod keyframe;
mod plain;

pub use crate::proved::h26x_packetizer::{
    BufferMemory, EveryUnitError, PacketBuffer, Packing, RefusedUnit, WhyRefused,
};
pub use any_depacketizer::AnyDepacketizer;
pub use any_packetizer::AnyPacketizer;
pub use any_payload_depacketizer::AnyPayloadDepacketizer;
pub use codec::Codec;
pub use every_unit::refused_among_all;
pub(crate) use every_unit::sent_units;
