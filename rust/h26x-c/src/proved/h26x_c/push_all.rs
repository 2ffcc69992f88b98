// Made from crates/h26x_c/src/push_all.rt by tools/to-rust.

//! Packets for a receiver of access units, many in one call.

use crate::proved::h26x_c::handle::Handle;
use crate::proved::h26x_codes::code::{OUT_OF_RANGE, WRONG_END};
use crate::proved::h26x_endpoint::endpoint::Endpoint;
use crate::proved::h26x_handles::payloads::{RtpPayload, are_within};
use crate::proved::h26x_handles::push_all::PushTold;
use core::mem::MaybeUninit;

/// Takes packets that came at this tick, whose payloads lie in one buffer, as by one call after the
/// other.
pub fn h26x_access_units_push_all(
    u: &mut Handle,
    now: u32,
    bytes: &[u8],
    payloads: &[RtpPayload],
    told: &mut [PushTold],
    taken: &mut MaybeUninit<usize>,
) -> u32 {
    taken.write(0);
    let Endpoint::AccessUnits(it) = u.get_mut() else {
        return WRONG_END;
    };
    if !are_within(payloads, bytes.len()) {
        return OUT_OF_RANGE;
    }
    let (code, count) = it.push_all(now, bytes, payloads, told);
    taken.write(count);
    code
}
