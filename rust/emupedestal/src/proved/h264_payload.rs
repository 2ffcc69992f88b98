// Made from crates/h264_payload/src/lib.rt by tools/to-rust.

mod codec;
mod depacketizer;
mod detect;
mod every;
mod packet;
mod packetizer;
mod stap;

pub use crate::proved::h26x_core::ANNEXB_NALUSTART_CODE;
pub use crate::proved::h26x_packetizer::{
    BufferMemory, EveryUnitError, PacketBuffer, Packing, RefusedUnit, WhyRefused,
};
pub use codec::H264;
pub use depacketizer::H264Depacketizer;
pub use detect::{detect_h264_keyframe, detect_h264_nalu};
pub use packetizer::H264Packetizer;
