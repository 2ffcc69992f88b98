// Made from crates/h26x_sdp/src/error.rt by tools/to-rust.

//! Why values of parameters are refused.

use crate::proved::h26x_fmtp::{Fault, ParametersError, UnitsError};
use crate::support::AllocError;

/// Why a text or bytes are no constraints of H.266.
#[derive(Debug, Clone, Copy, PartialEq, Eq, Hash)]
#[non_exhaustive]
pub enum ConstraintsError {
    /// The text is no base64 (RFC 4648, section 4).
    NotBase64,

    /// They end before they say all.
    Short,

    /// Bytes stand behind them.
    Long,

    /// The allocator had no memory.
    OutOfMemory,
}

impl core::fmt::Display for ConstraintsError {
    fn fmt(&self, f: &mut core::fmt::Formatter<'_>) -> core::fmt::Result {
        match self {
            ConstraintsError::NotBase64 => write!(f, "the constraints are no base64"),
            ConstraintsError::Short => write!(f, "the constraints are too short"),
            ConstraintsError::Long => write!(f, "bytes stand behind the constraints"),
            ConstraintsError::OutOfMemory => write!(f, "out of memory"),
        }
    }
}

impl core::error::Error for ConstraintsError {}

/// Why a text is no parameter sets of levels. A refused call changes nothing.
#[derive(Debug, Clone, Copy, PartialEq, Eq, Hash)]
#[non_exhaustive]
pub enum LevelSetsError {
    /// The profile and level at this place, counted from 0, isn't six hexadecimal digits.
    NotHexadecimal { place: usize },

    /// No sets stand behind the profile and level at this place.
    NoSets { place: usize },

    /// The sets of the level at this place have this fault.
    Sets { place: usize, fault: UnitsError },

    /// The allocator had no memory.
    OutOfMemory,
}

impl core::fmt::Display for LevelSetsError {
    fn fmt(&self, f: &mut core::fmt::Formatter<'_>) -> core::fmt::Result {
        match self {
            LevelSetsError::NotHexadecimal { place } => {
                write!(f, "level {place} is not six digits")
            }
            LevelSetsError::NoSets { place } => write!(f, "level {place} has no sets"),
            LevelSetsError::Sets { place, fault } => {
                write!(f, "the sets of level {place} are refused: {fault}")
            }
            LevelSetsError::OutOfMemory => write!(f, "out of memory"),
        }
    }
}

impl core::error::Error for LevelSetsError {}

impl From<AllocError> for LevelSetsError {
    fn from(_e: AllocError) -> LevelSetsError {
        LevelSetsError::OutOfMemory
    }
}

/// Why a text is no capability points. A refused call changes nothing.
#[derive(Debug, Clone, Copy, PartialEq, Eq, Hash)]
#[non_exhaustive]
pub enum CapabilityPointsError {
    /// The text doesn't begin with `{` and end with `}`.
    NoBraces,

    /// The point at this place, counted from 0, starts with neither `w` nor `t` before a `:`.
    NoTool { place: usize },

    /// The number behind the tool of the point at this place has this fault.
    Segmentation { place: usize, fault: Fault },

    /// The limits of the point at this place have this fault.
    Limits {
        place: usize,
        fault: ParametersError,
    },

    /// The point at this place has no limit.
    NoLimit { place: usize },

    /// The allocator had no memory.
    OutOfMemory,
}

impl core::fmt::Display for CapabilityPointsError {
    fn fmt(&self, f: &mut core::fmt::Formatter<'_>) -> core::fmt::Result {
        match self {
            CapabilityPointsError::NoBraces => write!(f, "no braces"),
            CapabilityPointsError::NoTool { place } => write!(f, "point {place} is for no tool"),
            CapabilityPointsError::Segmentation { place, fault } => {
                write!(f, "the number of point {place} is refused: {fault}")
            }
            CapabilityPointsError::Limits { place, fault } => {
                write!(f, "the limits of point {place} are refused: {fault}")
            }
            CapabilityPointsError::NoLimit { place } => write!(f, "point {place} has no limit"),
            CapabilityPointsError::OutOfMemory => write!(f, "out of memory"),
        }
    }
}

impl core::error::Error for CapabilityPointsError {}

impl From<AllocError> for CapabilityPointsError {
    fn from(_e: AllocError) -> CapabilityPointsError {
        CapabilityPointsError::OutOfMemory
    }
}

/// Why a text is no format of retransmission. A refused call changes nothing.
#[derive(Debug, Clone, Copy, PartialEq, Eq, Hash)]
#[non_exhaustive]
pub enum RtxError {
    /// The parameters have this fault.
    Parameters(ParametersError),

    /// There is no `apt`, which RFC 4588, section 8.3, asks for.
    NoPayloadType,

    /// The allocator had no memory.
    OutOfMemory,
}

impl core::fmt::Display for RtxError {
    fn fmt(&self, f: &mut core::fmt::Formatter<'_>) -> core::fmt::Result {
        match self {
            RtxError::Parameters(of_0) => write!(f, "{of_0}"),
            RtxError::NoPayloadType => write!(f, "no associated payload type"),
            RtxError::OutOfMemory => write!(f, "out of memory"),
        }
    }
}

impl core::error::Error for RtxError {}
