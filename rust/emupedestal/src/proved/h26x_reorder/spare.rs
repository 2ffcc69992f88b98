// Made from crates/h26x_reorder/src/spare.rt by tools/to-rust.

//! Memory of payloads that went, for later ones.

use crate::support::AllocError;
use crate::support::{AppendBytes, TryVec};
use alloc::vec::Vec;

/// How many payloads' memory is kept.
const KEPT_PAYLOADS: usize = 64;

/// How many bytes of memory are kept of each at most: those of a datagram on an Ethernet, and more.
const KEPT_BYTES: usize = 2048;

/// Memory of payloads that went, for later ones. To contracts it is nothing.
#[derive(Debug, Clone)]
pub struct SparePayloads {
    memories: Vec<Vec<u8>>,
}

impl SparePayloads {
    /// None.
    pub(crate) fn none() -> Self {
        SparePayloads {
            memories: Vec::new(),
        }
    }

    /// A copy of a payload, in memory that is kept, where there is some.
    #[inline(always)]
    pub(crate) fn copy(&mut self, payload: &[u8]) -> Result<Vec<u8>, AllocError> {
        match self.memories.pop() {
            Some(mut memory) => {
                memory.try_reserve(payload.len())?;
                memory.append_bytes(payload);
                Ok(memory)
            }
            None => Vec::try_from_slice(payload),
        }
    }

    /// Keeps the memory of a payload that went, where it is within the limits.
    #[inline]
    pub(crate) fn keep(&mut self, mut memory: Vec<u8>) {
        if memory.capacity() <= KEPT_BYTES && self.memories.len() < KEPT_PAYLOADS {
            memory.clear();
            let _ = self.memories.try_push(memory);
        }
    }
}
