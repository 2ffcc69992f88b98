//! Each request for memory is refused: the call says so, changes nothing, and can be made again. A call that
//! aborted would end the test. And calls that take no memory.
//!
//! `public` asks the crate's own calls. The other modules ask the proved ones, also those that no public call makes,
//! and so have these as modules of their own. Their bytes and answers are from outside, as the RFCs have them; those of
//! `drawn` are of plain models.

extern crate alloc;

mod access_units;
mod buffer;
mod codec;
mod drawn;
mod ends;
mod h264;
mod h265;
mod h266;
mod kept;
mod profiles;
mod public;
mod refusing;
mod reorder;
mod sequenced;
mod shown;
mod words;

#[allow(dead_code, unused_imports)]
#[allow(clippy::all)]
#[path = "../../src/proved"]
mod proved {
    pub mod h264_payload;
    pub mod h265_packets;
    pub mod h265_payload;
    pub mod h266_payload;
    #[cfg(feature = "sdp")]
    pub mod h26x_answers;
    pub mod h26x_assembler;
    pub mod h26x_codec;
    pub mod h26x_core;
    pub mod h26x_cut;
    pub mod h26x_depacketizer;
    #[cfg(feature = "sdp")]
    pub mod h26x_fmtp;
    pub mod h26x_packetizer;
    pub mod h26x_payload;
    pub mod h26x_profile;
    pub mod h26x_receiver;
    pub mod h26x_reorder;
    #[cfg(feature = "sdp")]
    pub mod h26x_sdp;
    #[cfg(feature = "sdp")]
    pub mod h26x_stream_parameters;
    pub mod h26x_transmission;
}

// What support is for parameters of SDP has no caller here.
#[allow(dead_code, unused_imports)]
#[path = "../../src/support.rs"]
mod support;

// What the modules name as callers have it: here as it is proved.
use proved::h26x_codec::{Codec, EveryUnitError, Packing};
use proved::h26x_core::{CodecExtra, Depacketizer, PacketError, Packetizer};
use proved::h26x_packetizer::PacketsSize;
use proved::h264_payload::{H264Depacketizer, H264Packetizer};
use proved::h265_payload::{H265Depacketizer, H265Packetizer};
use proved::h266_payload::{H266Depacketizer, H266Packetizer};
