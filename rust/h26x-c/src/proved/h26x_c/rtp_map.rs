// Made from crates/h26x_c/src/rtp_map.rt by tools/to-rust.

//! The calls on payload types of SDP, and on what `packetization-mode` 0 lets through.

use crate::proved::h26x_c::copied::copy_out;
use crate::proved::h26x_codes::code::{OK, OUT_OF_MEMORY, UNKNOWN_CODEC, codec_of};
use crate::proved::h26x_fmtp::RtpMap;
use crate::proved::h26x_sdp_handles::sdp_code::{
    PAYLOAD_TYPE, codec_of_encoding, encoding_of_codec, number_of_codec, of_rtp_map,
};
use crate::proved::h26x_stream_parameters::fits_single_units;
use core::mem::MaybeUninit;

/// Reads what stands behind `a=rtpmap:`.
pub fn h26x_rtpmap_read(
    text: &[u8],
    payload_type: &mut MaybeUninit<u8>,
    codec: &mut MaybeUninit<u32>,
) -> u32 {
    match RtpMap::read(text) {
        Ok(map) => {
            payload_type.write(map.payload_type);
            codec.write(number_of_codec(codec_of_encoding(map.encoding)));
            OK
        }
        Err(error) => of_rtp_map(error),
    }
}

/// Writes what stands behind `a=rtpmap:`, where there is room.
pub fn h26x_rtpmap_write(
    payload_type: u8,
    codec: u32,
    to: &mut [u8],
    len: &mut MaybeUninit<usize>,
) -> u32 {
    let Some(codec) = codec_of(codec) else {
        return UNKNOWN_CODEC;
    };
    if payload_type >= 128 {
        return PAYLOAD_TYPE;
    }
    let encoding = encoding_of_codec(codec);
    let map = RtpMap {
        payload_type,
        encoding,
    };
    match map.write() {
        Ok(text) => copy_out(text.as_slice(), to, len),
        Err(_) => OUT_OF_MEMORY,
    }
}

/// Whether each unit of a payload of H.264 fits a packet of its own.
pub fn h26x_fits_single_units(payload: &[u8], limit: usize) -> bool {
    fits_single_units(payload, limit)
}
