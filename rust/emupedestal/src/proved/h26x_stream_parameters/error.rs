// Made from crates/h26x_stream_parameters/src/error.rt by tools/to-rust.

//! Why units say no parameters.

use crate::support::AllocError;

/// Why units say no parameters. A refused call changes nothing.
#[derive(Debug, Clone, Copy, PartialEq, Eq)]
#[non_exhaustive]
pub enum StreamError {
    /// No parameter set that says a profile and a level stands before the first slice.
    NoParameterSet,

    /// The first that would say them ends before they do.
    ShortParameterSet,

    /// The first SPS of H.266 doesn't say them: sps_ptl_dpb_hrd_params_present_flag is 0.
    NoProfile,

    /// The allocator had no memory.
    OutOfMemory,
}

impl core::fmt::Display for StreamError {
    fn fmt(&self, f: &mut core::fmt::Formatter<'_>) -> core::fmt::Result {
        match self {
            StreamError::NoParameterSet => write!(f, "no parameter set says a profile and a level"),
            StreamError::ShortParameterSet => write!(f, "a parameter set is too short"),
            StreamError::NoProfile => write!(f, "the parameter set says no profile"),
            StreamError::OutOfMemory => write!(f, "out of memory"),
        }
    }
}

impl core::error::Error for StreamError {}

impl From<AllocError> for StreamError {
    fn from(_e: AllocError) -> StreamError {
        StreamError::OutOfMemory
    }
}
