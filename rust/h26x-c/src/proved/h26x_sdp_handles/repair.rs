// Made from crates/h26x_sdp_handles/src/repair.rt by tools/to-rust.

//! What goes beside video in a session, as numbers.

use crate::proved::h26x_codes::code::{OUT_OF_MEMORY, OUT_OF_RANGE};
use crate::proved::h26x_fmtp::{RepairFormat, RepairMap};
use crate::proved::h26x_sdp::RtxFormat;
use crate::proved::h26x_sdp_handles::sdp_code::{PAYLOAD_TYPE, Refused, of_rtx};
use alloc::vec::Vec;

/// The number of what goes beside video.
pub fn number_of_repair(format: RepairFormat) -> u32 {
    match format {
        RepairFormat::Rtx => 1,
        RepairFormat::Red => 2,
        RepairFormat::Ulpfec => 3,
        RepairFormat::Flexfec => 4,
        RepairFormat::Flexfec03 => 5,
    }
}

/// What goes beside video, by its number.
pub fn repair_of(number: u32) -> Option<RepairFormat> {
    match number {
        1 => Some(RepairFormat::Rtx),
        2 => Some(RepairFormat::Red),
        3 => Some(RepairFormat::Ulpfec),
        4 => Some(RepairFormat::Flexfec),
        5 => Some(RepairFormat::Flexfec03),
        _ => None,
    }
}

/// The payload type of what goes beside video, by its number.
pub fn repair_map_of(payload_type: u8, number: u32) -> Result<RepairMap, u32> {
    let Some(format) = repair_of(number) else {
        return Err(OUT_OF_RANGE);
    };
    if payload_type >= 128 {
        return Err(PAYLOAD_TYPE);
    }
    Ok(RepairMap {
        payload_type,
        format,
    })
}

/// The format of retransmission, as C is told it and tells it.
#[repr(C)]
#[derive(Debug, Clone, Copy, PartialEq, Eq)]
pub struct RtxNumbers {
    /// For how many milliseconds a packet can be sent again; 0 where it isn't said.
    pub rtx_time: u64,
    /// The payload type that packets were first sent with.
    pub payload_type: u8,
    /// Whether the time is said.
    pub has_rtx_time: bool,
}

/// A format in numbers.
fn numbers_of_rtx(format: RtxFormat) -> RtxNumbers {
    let (rtx_time, has_rtx_time) = match format.rtx_time {
        Some(time) => (time, true),
        None => (0, false),
    };
    RtxNumbers {
        rtx_time,
        payload_type: format.payload_type,
        has_rtx_time,
    }
}

/// The format that numbers say.
fn rtx_of_numbers(it: &RtxNumbers) -> RtxFormat {
    let rtx_time = if it.has_rtx_time {
        Some(it.rtx_time)
    } else {
        None
    };
    RtxFormat {
        payload_type: it.payload_type,
        rtx_time,
    }
}

/// Reads what stands behind the payload type in an `a=fmtp` line of retransmission.
pub fn read_rtx(text: &[u8]) -> Result<RtxNumbers, Refused> {
    match RtxFormat::read(text) {
        Ok(format) => Ok(numbers_of_rtx(format)),
        Err(error) => Err(of_rtx(error)),
    }
}

/// Writes it.
pub fn write_rtx(it: &RtxNumbers) -> Result<Vec<u8>, u32> {
    if it.payload_type >= 128 {
        return Err(PAYLOAD_TYPE);
    }
    match rtx_of_numbers(it).write() {
        Ok(text) => Ok(text),
        Err(_) => Err(OUT_OF_MEMORY),
    }
}
