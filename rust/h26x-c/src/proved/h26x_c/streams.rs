// Made from crates/h26x_c/src/streams.rt by tools/to-rust.

//! The calls on what an offered format and its answer agree on, and on declared formats.

use crate::proved::h26x_c::const_handle::ConstHandle;
use crate::proved::h26x_c::copied::copy_out;
use crate::proved::h26x_c::sdp::tell;
use crate::proved::h26x_codes::code::{OK, OUT_OF_RANGE, Refusal, WRONG_END};
use crate::proved::h26x_endpoint::endpoint::Endpoint;
use crate::proved::h26x_sdp_handles::answer_options::config_of;
use crate::proved::h26x_sdp_handles::sdp_code::{NO_ANSWER, refused_with};
use crate::proved::h26x_sdp_handles::streams::{StreamNumbers, numbers_of_stream};
use core::mem::MaybeUninit;

/// What an offered format and its answer agree on, of the end that wrote the first, whichever of the
/// two that is: what it sends and what it receives.
pub fn h26x_sdp_agreed(
    own: &ConstHandle,
    other: &ConstHandle,
    options: u32,
    sends: &mut MaybeUninit<StreamNumbers>,
    receives: &mut MaybeUninit<StreamNumbers>,
) -> u32 {
    let Some(config) = config_of(options) else {
        return OUT_OF_RANGE;
    };
    let (Endpoint::Sdp(own), Endpoint::Sdp(other)) = (own.get(), other.get()) else {
        return WRONG_END;
    };
    match own.agreed(config, other) {
        Some(agreed) => {
            sends.write(numbers_of_stream(agreed.sends));
            receives.write(numbers_of_stream(agreed.receives));
            OK
        }
        None => NO_ANSWER,
    }
}

/// Whether a format of ours receives a declared one as it is, by the code.
pub fn h26x_sdp_accepts_declared(declared: &ConstHandle, ours: &ConstHandle, options: u32) -> u32 {
    let Some(config) = config_of(options) else {
        return OUT_OF_RANGE;
    };
    let (Endpoint::Sdp(declared), Endpoint::Sdp(ours)) = (declared.get(), ours.get()) else {
        return WRONG_END;
    };
    if declared.is_accepted(config, ours) {
        OK
    } else {
        NO_ANSWER
    }
}

/// A unit, counted from 0, of those that `sprop-level-parameter-sets` has for a level, where there is
/// room.
pub fn h26x_sdp_level_unit(
    h: &ConstHandle,
    level: u64,
    i: usize,
    to: &mut [u8],
    len: &mut MaybeUninit<usize>,
    why: &mut MaybeUninit<Refusal>,
) -> u32 {
    let Endpoint::Sdp(it) = h.get() else {
        return tell(refused_with(WRONG_END), why);
    };
    match it.level_unit(level, i) {
        Ok(unit) => copy_out(unit.as_slice(), to, len),
        Err(refused) => tell(refused, why),
    }
}
