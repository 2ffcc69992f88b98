// Made from crates/h26x_fmtp/src/error.rt by tools/to-rust.

//! Why parameters are refused.

use crate::support::AllocError;

/// What is wrong with a parameter.
#[non_exhaustive]
#[derive(Debug, Clone, Copy, PartialEq, Eq, Hash)]
pub enum Fault {
    /// The value is no decimal number.
    NotANumber,
    /// The value is a number, but none that the parameter may have.
    OutOfRange,
    /// The value isn't hexadecimal digits, or not as many as the parameter has.
    NotHexadecimal,
    /// The value is none of `SRST`, `MRST` and `MRMT`, in either case.
    NotTxMode,
    /// A parameter of this name stands before it.
    Twice,
}

/// Why a text is no format parameters. A refused call changes nothing.
#[derive(Debug, Clone, Copy, PartialEq, Eq, Hash)]
#[non_exhaustive]
pub enum ParametersError {
    /// A `{` of the text isn't closed.
    OpenBrace,

    /// The parameter at this place, counted from 0, has this fault. Blank parts don't count.
    Refused { place: usize, fault: Fault },

    /// The allocator had no memory.
    OutOfMemory,
}

impl core::fmt::Display for ParametersError {
    fn fmt(&self, f: &mut core::fmt::Formatter<'_>) -> core::fmt::Result {
        match self {
            ParametersError::OpenBrace => write!(f, "a brace is left open"),
            ParametersError::Refused { place, fault } => {
                write!(f, "parameter {place} is refused: {fault}")
            }
            ParametersError::OutOfMemory => write!(f, "out of memory"),
        }
    }
}

impl core::error::Error for ParametersError {}

impl From<AllocError> for ParametersError {
    fn from(_e: AllocError) -> ParametersError {
        ParametersError::OutOfMemory
    }
}

/// Why a text is no NAL units. A refused call changes nothing.
#[derive(Debug, Clone, Copy, PartialEq, Eq, Hash)]
#[non_exhaustive]
pub enum UnitsError {
    /// The text at this place, counted from 0, is no base64 (RFC 4648, section 4).
    NotBase64 { place: usize },

    /// The unit at this place, counted from 0, has no byte.
    Empty { place: usize },

    /// The unit at this place, counted from 0, is of no type that the parameter is for.
    OtherType { place: usize },

    /// The unit at this place, counted from 0, has a start code, `00 00 01`, inside.
    StartCode { place: usize },

    /// The allocator had no memory.
    OutOfMemory,
}

impl core::fmt::Display for UnitsError {
    fn fmt(&self, f: &mut core::fmt::Formatter<'_>) -> core::fmt::Result {
        match self {
            UnitsError::NotBase64 { place } => write!(f, "unit {place} is no base64"),
            UnitsError::Empty { place } => write!(f, "unit {place} is empty"),
            UnitsError::OtherType { place } => write!(f, "unit {place} is of another type"),
            UnitsError::StartCode { place } => write!(f, "unit {place} has a start code inside"),
            UnitsError::OutOfMemory => write!(f, "out of memory"),
        }
    }
}

impl core::error::Error for UnitsError {}

impl From<AllocError> for UnitsError {
    fn from(_e: AllocError) -> UnitsError {
        UnitsError::OutOfMemory
    }
}
