// Made from crates/h26x_c/src/so_far.rt by tools/to-rust.

//! The calls that show what came of an access unit before it ends.

use crate::proved::h26x_assembler::UnitsSoFar;
use crate::proved::h26x_c::const_handle::ConstHandle;
use crate::proved::h26x_codes::code::number_of;
use crate::proved::h26x_codes::copy::copy_first;
use crate::proved::h26x_endpoint::endpoint::Endpoint;
use core::mem::MaybeUninit;

/// What is told of an access unit that is open.
#[repr(C)]
#[derive(Clone, Copy)]
pub struct SoFarTold {
    pub len: usize,
    pub timestamp: u32,
    pub extra: u8,
}

/// Copies what came whole so far, from a byte on, as many bytes as there is room for, and tells of it.
fn show(
    open_unit: Option<UnitsSoFar<'_>>,
    from: usize,
    to: &mut [u8],
    told: &mut MaybeUninit<SoFarTold>,
) -> bool {
    let Some(unit) = open_unit else {
        return false;
    };
    let bytes = unit.bytes.get(from..).unwrap_or(&[]);
    told.write(SoFarTold {
        len: copy_first(bytes, to),
        timestamp: unit.timestamp,
        extra: number_of(unit.extra),
    });
    true
}

/// Shows what came whole so far of the access unit that is open.
pub fn h26x_access_units_so_far(
    u: &ConstHandle,
    from: usize,
    to: &mut [u8],
    so_far: &mut MaybeUninit<SoFarTold>,
) -> bool {
    match u.get() {
        Endpoint::AccessUnits(it) => show(it.units_so_far(), from, to, so_far),
        _ => false,
    }
}

/// Shows what came whole so far of the access unit that is open in a receiver of datagrams.
pub fn h26x_rtp_receiver_so_far(
    r: &ConstHandle,
    from: usize,
    to: &mut [u8],
    so_far: &mut MaybeUninit<SoFarTold>,
) -> bool {
    match r.get() {
        Endpoint::RtpReceiver(it) => show(it.units_so_far(), from, to, so_far),
        _ => false,
    }
}
