// Made from crates/h26x_c/src/units.rt by tools/to-rust.

//! The units of payloads, by their places, and what a unit is.

use crate::proved::h26x_codes::code::codec_of;
use crate::proved::h26x_cut::{next_avc_unit, next_unit};
use core::mem::MaybeUninit;

/// Where the next unit of a payload stands, from a place on.
pub fn h26x_next_unit(
    codec: u32,
    payload: &[u8],
    from: usize,
    begin: &mut MaybeUninit<usize>,
    end: &mut MaybeUninit<usize>,
) -> bool {
    let Some(codec) = codec_of(codec) else {
        return false;
    };
    match next_unit(payload, codec.zero_rule(), from) {
        Some(place) => {
            begin.write(place.start);
            end.write(place.end);
            true
        }
        None => false,
    }
}

/// Where the next unit of a text behind lengths stands, from a place on.
pub fn h26x_next_avc_unit(
    text: &[u8],
    from: usize,
    begin: &mut MaybeUninit<usize>,
    end: &mut MaybeUninit<usize>,
) -> bool {
    let Some(found) = next_avc_unit(text, from) else {
        return false;
    };
    begin.write(found.start);
    end.write(found.end);
    true
}

/// Whether a unit is plain: one of the video itself, in whose Annex B text no reader finds another.
pub fn h26x_unit_is_plain(codec: u32, unit: &[u8]) -> bool {
    match codec_of(codec) {
        Some(codec) => codec.is_plain_unit(unit),
        None => false,
    }
}
