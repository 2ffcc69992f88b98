// Made from crates/h26x_core/src/lib.rt by tools/to-rust.

mod constants;
mod error;
mod extra;
pub mod h265_types;
mod h265_words;
pub mod h266_types;
mod h266_words;
mod pieces;
mod sequence;
mod traits;

pub use constants::{
    ANNEXB_NALUSTART_CODE, AUD_NALU_TYPE, FILLER_NALU_TYPE, FU_END_BITMASK, FU_START_BITMASK,
    FUA_HEADER_SIZE, FUA_NALU_TYPE, FUB_NALU_TYPE, IDR_NALU_TYPE, NALU_REF_IDC_BITMASK,
    NALU_TYPE_BITMASK, OUTPUT_STAP_AHEADER, PPS_NALU_TYPE, SPS_NALU_TYPE, STAPA_HEADER_SIZE,
    STAPA_NALU_LENGTH_SIZE, STAPA_NALU_TYPE,
};
pub use error::PacketError;
pub use extra::{CodecExtra, H264CodecExtra, H265CodecExtra, H266CodecExtra};
pub use h265_words::{H265FragmentationUnitHeader, H265NALUHeader, H265TSCI};
pub use h266_words::{H266FragmentationUnitHeader, H266NALUHeader};
pub(crate) use pieces::first_piece;
pub use sequence::is_next;
pub use traits::{Depacketizer, Packetizer};
