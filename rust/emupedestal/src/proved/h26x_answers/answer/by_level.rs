// Made from crates/h26x_answers/src/answer/by_level.rt by tools/to-rust.

//! Answers to offers whose level is a number (RFC 7798, section 7.2.2; RFC 9328, section 7.3.2).

use crate::proved::h26x_answers::answer::{Terms, copy_of, holds};
use crate::proved::h26x_sdp::{CodecParameter, CodecParameters};
use crate::support::AllocError;

/// The parameters of the level, of the highest level that is received, and of packets that bear
/// decoding order numbers.
#[derive(Debug, Clone, Copy)]
pub(crate) struct LevelParameters<P> {
    /// The level.
    pub(crate) level: P,
    /// The highest level that is received.
    pub(crate) highest: P,
    /// How far decoding order numbers differ.
    pub(crate) difference: P,
    /// How many units are to be held.
    pub(crate) units: P,
    /// How many bytes are to be held.
    pub(crate) need: P,
    /// How many bytes a receiver holds.
    pub(crate) room: P,
}

/// The default level and the highest.
#[derive(Debug, Clone, Copy, PartialEq, Eq)]
pub(crate) struct Levels {
    pub(crate) level: u64,
    pub(crate) highest: u64,
}

/// The levels of parameters.
pub(crate) fn levels_of<P: CodecParameter>(
    by: &LevelParameters<P>,
    it: &CodecParameters<P>,
) -> Option<Levels> {
    let Some(level) = it.number_or_default(by.level) else {
        return None;
    };
    let highest = match it.number(by.highest) {
        Some(received) => level.max(received),
        None => level,
    };
    Some(Levels { level, highest })
}

/// The value that says the highest level.
fn highest_value<'a, P: CodecParameter>(
    by: &LevelParameters<P>,
    it: &'a CodecParameters<P>,
    levels: Levels,
) -> Option<&'a [u8]> {
    if levels.level < levels.highest {
        it.value(by.highest)
    } else {
        it.value_or_default(by.level)
    }
}

/// The value of the answer's level: the lower of both.
fn lower_level<'a, P: CodecParameter>(
    by: &LevelParameters<P>,
    offered: &'a CodecParameters<P>,
    own: &'a CodecParameters<P>,
    a: Levels,
    b: Levels,
) -> Option<&'a [u8]> {
    if b.level < a.level {
        own.value(by.level)
    } else {
        offered.value(by.level)
    }
}

/// The value of the answer's highest level: the lower of both, where it's above the answer's level.
fn lower_highest<'a, P: CodecParameter>(
    by: &LevelParameters<P>,
    offered: &'a CodecParameters<P>,
    own: &'a CodecParameters<P>,
    a: Levels,
    b: Levels,
) -> Option<&'a [u8]> {
    if a.level.min(b.level) >= a.highest.min(b.highest) {
        None
    } else if b.highest < a.highest {
        highest_value(by, own, b)
    } else {
        highest_value(by, offered, a)
    }
}

/// Whether a number is there, and positive.
pub(crate) fn is_positive(number: Option<u64>) -> bool {
    match number {
        Some(number) => 0 < number,
        None => false,
    }
}

/// Whether what one sends is what another can put in order.
pub(crate) fn can_hold<P: CodecParameter>(
    by: &LevelParameters<P>,
    sender: &CodecParameters<P>,
    receiver: &CodecParameters<P>,
) -> bool {
    let need = sender.number_or_default(by.need);
    let room = receiver.number_or_default(by.room);
    let units = sender.number_or_default(by.units);
    !is_positive(sender.number_or_default(by.difference))
        || (is_positive(units) && (is_positive(need) && holds(need, room)))
}

/// Whether our level isn't below the offered one.
pub(crate) fn keeps_level<P: CodecParameter>(
    by: &LevelParameters<P>,
    offered: &CodecParameters<P>,
    own: &CodecParameters<P>,
) -> bool {
    match (levels_of(by, offered), levels_of(by, own)) {
        (Some(a), Some(b)) => a.level <= b.level,
        _ => false,
    }
}

/// The terms of two formats of these levels.
fn terms_of_levels<P: CodecParameter>(
    by: &LevelParameters<P>,
    offered: &CodecParameters<P>,
    own: &CodecParameters<P>,
    a: Levels,
    b: Levels,
) -> Result<Terms, AllocError> {
    Ok(Terms {
        level: copy_of(lower_level(by, offered, own, a, b))?,
        highest: copy_of(lower_highest(by, offered, own, a, b))?,
        asymmetric: false,
        reorders: false,
        sets: b.level <= a.level,
        level_sets: false,
    })
}

/// The terms of two formats, if each end can put in order what the other sends.
pub(crate) fn terms_by_level<P: CodecParameter>(
    by: &LevelParameters<P>,
    offered: &CodecParameters<P>,
    own: &CodecParameters<P>,
) -> Result<Option<Terms>, AllocError> {
    let (Some(a), Some(b)) = (levels_of(by, offered), levels_of(by, own)) else {
        return Ok(None);
    };
    if !(can_hold(by, offered, own) && can_hold(by, own, offered)) {
        return Ok(None);
    }
    Ok(Some(terms_of_levels(by, offered, own, a, b)?))
}
