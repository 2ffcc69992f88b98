//! What is told of a value that isn't taken.

use super::Fault;
use crate::support::AllocError;
use core::error::Error;
use core::fmt;

/// Why a parameter isn't given a value. The format stays as it was.
#[derive(Debug, Clone, Copy, PartialEq, Eq, Hash)]
#[non_exhaustive]
pub enum SetError {
    /// The value is none of the parameter.
    Fault(Fault),
    /// The text would be read as more than a value: it has a `;` outside braces, or leaves one open.
    NotAValue,
    /// There was no memory.
    OutOfMemory,
}

impl fmt::Display for SetError {
    fn fmt(&self, f: &mut fmt::Formatter<'_>) -> fmt::Result {
        match self {
            SetError::Fault(fault) => write!(f, "the parameter is refused: {fault}"),
            SetError::NotAValue => write!(f, "the text is more than a value"),
            SetError::OutOfMemory => write!(f, "out of memory"),
        }
    }
}

impl Error for SetError {}

impl From<AllocError> for SetError {
    fn from(_: AllocError) -> Self {
        SetError::OutOfMemory
    }
}

/// A rule of its RFC that a format of one's own breaks, for which it gives no answer: what
/// [`broken_rule`](super::CodecParameters::broken_rule) tells (RFC 6184, section 8.1; RFC 7798, section 7.1; RFC 9328,
/// section 7.2).
#[derive(Debug, Clone, Copy, PartialEq, Eq, Hash)]
#[non_exhaustive]
pub enum BrokenRule<P> {
    /// The standard has no such profile.
    Profile,
    /// The standard has no such level.
    Level,
    /// The highest level that is received isn't above the level, or the standard has no such level.
    HighestLevel,
    /// This parameter is below what the highest level asks for.
    BelowLevel(P),
    /// This parameter is more than 16 times what the highest level asks for, of H.265 and H.266.
    AboveLevel(P),
    /// What is said of packets out of order stands where there are none, or is absent where there are.
    Reordering,
    /// `sar-supported` is above `sar-understood`, and isn't 255.
    AspectRatios,
    /// `in-band-parameter-sets` is 1, and so is `use-level-src-parameter-sets`.
    InBandSets,
    /// `include-dph` isn't a list of numbers up to 255.
    HashTypes,
    /// Units may be sent in another order than decoded, which only
    /// [`answer_any_order`](super::CodecParameters::answer_any_order) takes.
    OutOfOrder,
}

impl<P: fmt::Display> fmt::Display for BrokenRule<P> {
    fn fmt(&self, f: &mut fmt::Formatter<'_>) -> fmt::Result {
        match self {
            BrokenRule::Profile => write!(f, "the standard has no such profile"),
            BrokenRule::Level => write!(f, "the standard has no such level"),
            BrokenRule::HighestLevel => write!(f, "the highest level isn't one above the level"),
            BrokenRule::BelowLevel(it) => write!(f, "{it} is below what the level asks for"),
            BrokenRule::AboveLevel(it) => {
                write!(f, "{it} is above 16 times what the level asks for")
            }
            BrokenRule::Reordering => write!(f, "what is said of packets out of order doesn't fit"),
            BrokenRule::AspectRatios => write!(f, "sar-supported is above sar-understood"),
            BrokenRule::InBandSets => {
                write!(f, "sets of levels aren't used where all are sent in band")
            }
            BrokenRule::HashTypes => write!(f, "include-dph isn't a list of numbers up to 255"),
            BrokenRule::OutOfOrder => write!(f, "units may be sent in another order than decoded"),
        }
    }
}

impl<P: fmt::Debug + fmt::Display> Error for BrokenRule<P> {}
