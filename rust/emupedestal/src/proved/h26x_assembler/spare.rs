// Made from crates/h26x_assembler/src/spare.rt by tools/to-rust.

//! Memory of access units that was given back.

use alloc::vec::Vec;
use core::mem;

/// Of how many access units one after the other it is known how long the longest was: twice as many
/// count for what is kept.
const COUNTED: u8 = 32;

/// How many bytes of memory are kept whatever access units need.
const KEPT_MEMORY: usize = 1 << 20;

/// Memory of an access unit that was given back, for a later one: at most twice what the longest of the
/// last 64 that were given back needed, or 2^20 bytes. To contracts it is nothing.
pub struct SpareMemory {
    bytes: Vec<u8>,
    /// How many bytes the longest one has of those that are counted now.
    latest: usize,
    /// So of those that were counted before these.
    earlier: usize,
    /// How many are counted now.
    count: u8,
}

/// Of bytes it tells how many there are.
impl core::fmt::Debug for SpareMemory {
    fn fmt(&self, f: &mut core::fmt::Formatter<'_>) -> core::fmt::Result {
        use crate::support::Count;
        f.debug_struct("SpareMemory")
            .field("bytes", &Count(self.bytes.len()))
            .field("latest", &self.latest)
            .field("earlier", &self.earlier)
            .field("count", &self.count)
            .finish()
    }
}

/// How many bytes are kept at most, where the longest access units had so many.
#[inline]
fn kept_memory(latest: usize, earlier: usize) -> usize {
    latest.max(earlier).saturating_mul(2).max(KEPT_MEMORY)
}

impl SpareMemory {
    /// None.
    pub(crate) fn none() -> Self {
        SpareMemory {
            bytes: Vec::new(),
            latest: 0,
            earlier: 0,
            count: 0,
        }
    }

    /// Removes it; none where there is none.
    #[inline]
    pub(crate) fn remove(&mut self) -> Vec<u8> {
        mem::take(&mut self.bytes)
    }

    /// Puts memory back that was removed.
    pub(crate) fn put_back(&mut self, memory: Vec<u8>) {
        if memory.capacity() <= kept_memory(self.latest, self.earlier) {
            self.bytes = memory;
        }
    }

    /// Keeps memory of an access unit in the place of what is kept, where it is more and within the
    /// limits.
    #[inline]
    pub(crate) fn keep(&mut self, memory: Vec<u8>, limit: usize) {
        if self.count < COUNTED {
            self.latest = self.latest.max(memory.len());
            self.count += 1;
        } else {
            self.earlier = self.latest;
            self.latest = memory.len();
            self.count = 1;
        }
        let had = self.bytes.capacity();
        if memory.capacity() <= KEPT_MEMORY && had <= KEPT_MEMORY {
            // (whatever access units need so much may be kept)
            if memory.capacity() > had && memory.capacity() <= limit {
                self.bytes = memory;
            }
            return;
        }
        let most = kept_memory(self.latest, self.earlier);
        if memory.capacity() <= most.min(limit) && (had > most || memory.capacity() > had) {
            self.bytes = memory;
        } else if had > most {
            self.bytes = Vec::new();
        }
    }
}
