// Made from crates/h26x_rtp_sender/src/error.rt by tools/to-rust.

//! Why packets aren't sent.

use crate::proved::h26x_rtp::RtpWriteError;
use crate::support::AllocError;

/// Why the packets of an access unit aren't sent; all stays as it was.
#[derive(Debug, Clone, Copy, PartialEq, Eq)]
#[non_exhaustive]
pub enum RtpSendError {
    /// Their header isn't one, or has more bytes than the headroom before each, or than 272.
    Header(RtpWriteError),

    /// There is no memory for the history.
    OutOfMemory,
}

impl core::fmt::Display for RtpSendError {
    fn fmt(&self, f: &mut core::fmt::Formatter<'_>) -> core::fmt::Result {
        match self {
            RtpSendError::Header(of_0) => write!(f, "{of_0}"),
            RtpSendError::OutOfMemory => write!(f, "out of memory"),
        }
    }
}

impl core::error::Error for RtpSendError {}

impl From<AllocError> for RtpSendError {
    fn from(_e: AllocError) -> RtpSendError {
        RtpSendError::OutOfMemory
    }
}
