// Made from crates/h26x_c/src/repair.rt by tools/to-rust.

//! The calls on what goes beside video in a session: payload types, and the format of retransmission.

use crate::proved::h26x_c::copied::copy_out;
use crate::proved::h26x_c::sdp::tell;
use crate::proved::h26x_codes::code::{OK, OUT_OF_MEMORY, Refusal};
use crate::proved::h26x_fmtp::RepairMap;
use crate::proved::h26x_sdp_handles::repair::{
    RtxNumbers, number_of_repair, read_rtx, repair_map_of, write_rtx,
};
use crate::proved::h26x_sdp_handles::sdp_code::of_rtp_map;
use core::mem::MaybeUninit;

/// Reads what stands behind `a=rtpmap:` of what goes beside video.
pub fn h26x_repairmap_read(
    text: &[u8],
    payload_type: &mut MaybeUninit<u8>,
    format: &mut MaybeUninit<u32>,
) -> u32 {
    match RepairMap::read(text) {
        Ok(map) => {
            payload_type.write(map.payload_type);
            format.write(number_of_repair(map.format));
            OK
        }
        Err(error) => of_rtp_map(error),
    }
}

/// Writes it, where there is room.
pub fn h26x_repairmap_write(
    payload_type: u8,
    format: u32,
    to: &mut [u8],
    len: &mut MaybeUninit<usize>,
) -> u32 {
    let map = match repair_map_of(payload_type, format) {
        Ok(map) => map,
        Err(code) => return code,
    };
    match map.write() {
        Ok(text) => copy_out(text.as_slice(), to, len),
        Err(_) => OUT_OF_MEMORY,
    }
}

/// Reads what stands behind the payload type in an `a=fmtp` line of retransmission.
pub fn h26x_rtx_format_read(
    text: &[u8],
    format: &mut MaybeUninit<RtxNumbers>,
    why: &mut MaybeUninit<Refusal>,
) -> u32 {
    match read_rtx(text) {
        Ok(it) => {
            format.write(it);
            OK
        }
        Err(it) => tell(it, why),
    }
}

/// Writes it, where there is room.
pub fn h26x_rtx_format_write(
    format: &RtxNumbers,
    to: &mut [u8],
    len: &mut MaybeUninit<usize>,
) -> u32 {
    match write_rtx(format) {
        Ok(text) => copy_out(text.as_slice(), to, len),
        Err(code) => code,
    }
}
