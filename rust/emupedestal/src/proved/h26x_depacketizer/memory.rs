// Made from crates/h26x_depacketizer/src/memory.rt by tools/to-rust.

//! Memory of a caller that units are written to.

use crate::proved::h26x_depacketizer::sink::UnitSink;
use crate::support::AllocError;

/// Memory of a caller, which units are written to one behind the other from its front on.
pub struct MemorySink<'a> {
    to: &'a mut [u8],
    len: usize,
    lacks: bool,
}

impl<'a> MemorySink<'a> {
    /// Memory of which nothing was written.
    pub fn new(to: &'a mut [u8]) -> Self {
        MemorySink {
            to,
            len: 0,
            lacks: false,
        }
    }

    /// How many bytes were written.
    pub fn len(&self) -> usize {
        self.len
    }

    /// Whether it was asked for room that it doesn't have.
    pub fn lacks_room(&self) -> bool {
        self.lacks
    }
}

impl<'a> UnitSink for MemorySink<'a> {
    #[inline(always)]
    fn try_reserve(&mut self, count: usize) -> Result<(), AllocError> {
        if count > self.to.len() - self.len {
            self.lacks = true;
            return Err(AllocError);
        }
        Ok(())
    }

    #[inline(always)]
    fn put(&mut self, bytes: &[u8]) {
        let end = self.len + bytes.len();
        self.to[self.len..end].copy_from_slice(bytes);
        self.len = end;
    }

    #[inline(always)]
    fn put_behind(&mut self, prefix: [u8; 4], bytes: &[u8]) {
        self.put(&prefix);
        self.put(bytes);
    }
}
