// Made from crates/h26x_answers/src/fault.rt by tools/to-rust.

//! Rules of the RFCs that a format of one's own may break.

use crate::proved::h26x_sdp::{CodecParameter, CodecParameters};

/// A rule that a format breaks: of its RFC (RFC 6184, section 8.1; RFC 7798, section 7.1; RFC 9328,
/// section 7.2), or, the last, of this payload layer.
#[derive(Debug, Clone, Copy, PartialEq, Eq)]
pub enum FormatFault {
    /// The standard has no such profile.
    Profile,
    /// The standard has no such level.
    Level,
    /// The highest level that is received isn't above the level, or the standard has no such level.
    HighestLevel,
    /// The parameter at this place of the table is below what the highest level asks for.
    BelowLevel { place: usize },
    /// The parameter at this place is more than 16 times what the highest level asks for, of H.265 and
    /// H.266.
    AboveLevel { place: usize },
    /// What is said of packets out of order stands where there are none, or is absent where there are.
    Reordering,
    /// `sar-supported` is above `sar-understood`, and isn't 255.
    AspectRatios,
    /// `in-band-parameter-sets` is 1, and so is `use-level-src-parameter-sets`.
    InBandSets,
    /// `include-dph` isn't a list of numbers up to 255.
    HashTypes,
    /// Units are sent in another order than decoded, and the caller doesn't say that it takes any.
    OutOfOrder,
}

/// What is wrong with a limit: it is below what the level asks for.
pub(crate) fn fault_below<P: CodecParameter>(
    it: &CodecParameters<P>,
    parameter: P,
    least: u64,
) -> Option<FormatFault> {
    match it.number(parameter) {
        Some(number) if number < least => Some(FormatFault::BelowLevel {
            place: parameter.place(),
        }),
        _ => None,
    }
}

/// What is wrong with a limit: it is below what the level asks for, or more than 16 times that.
pub(crate) fn fault_outside<P: CodecParameter>(
    it: &CodecParameters<P>,
    parameter: P,
    least: u64,
) -> Option<FormatFault> {
    match it.number(parameter) {
        Some(number) if is_above_16(number, least) => Some(FormatFault::AboveLevel {
            place: parameter.place(),
        }),
        _ => fault_below(it, parameter, least),
    }
}

/// Whether a number is more than 16 times another.
fn is_above_16(number: u64, least: u64) -> bool {
    16 * u128::from(least) < u128::from(number)
}
