// Made from crates/h26x_depacketizer/src/sink.rt by tools/to-rust.

//! Where units are written.

use crate::support::AllocError;
use crate::support::AppendBytes;
use alloc::vec::Vec;

/// What units are written to, one behind the other: a list of bytes, or memory of a caller.
pub(crate) trait UnitSink {
    /// Has room for so many bytes more, or fails, leaves everything and tells that room lacks.
    fn try_reserve(&mut self, count: usize) -> Result<(), AllocError>;

    /// Writes bytes behind the others.
    fn put(&mut self, bytes: &[u8]);

    /// Writes bytes behind a prefix of four, and both behind the others.
    fn put_behind(&mut self, prefix: [u8; 4], bytes: &[u8]);
}

impl UnitSink for Vec<u8> {
    #[inline(always)]
    fn try_reserve(&mut self, count: usize) -> Result<(), AllocError> {
        crate::support::try_reserve(self, count)
    }

    #[inline(always)]
    fn put(&mut self, bytes: &[u8]) {
        self.append_bytes(bytes);
    }

    #[cfg_attr(feature = "std", inline(always))]
    fn put_behind(&mut self, prefix: [u8; 4], bytes: &[u8]) {
        self.put(&prefix);
        self.put(bytes);
    }
}
