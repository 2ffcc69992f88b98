// Made from crates/h26x_c/src/receive_all.rt by tools/to-rust.

//! Packets with their sequence numbers for a receiver, many in one call.

use crate::proved::h26x_c::handle::Handle;
use crate::proved::h26x_codes::code::{OUT_OF_RANGE, WRONG_END};
use crate::proved::h26x_endpoint::endpoint::Endpoint;
use crate::proved::h26x_handles::payloads::{RtpPayload, are_within};
use crate::proved::h26x_handles::receive_all::ReceivedTold;
use core::mem::MaybeUninit;

/// Takes packets with their sequence numbers, whose payloads lie in one buffer, as by one call after
/// the other, and writes what they complete one behind the other.
pub fn h26x_receive_all(
    r: &mut Handle,
    bytes: &[u8],
    payloads: &[RtpPayload],
    to: &mut [u8],
    told: &mut [ReceivedTold],
    taken: &mut MaybeUninit<usize>,
    written: &mut MaybeUninit<usize>,
) -> u32 {
    taken.write(0);
    written.write(0);
    let Endpoint::Sequenced(it) = r.get_mut() else {
        return WRONG_END;
    };
    if !are_within(payloads, bytes.len()) {
        return OUT_OF_RANGE;
    }
    let end = it.receive_all(bytes, payloads, to, told);
    taken.write(end.taken);
    written.write(end.written);
    end.code
}
