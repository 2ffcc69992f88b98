// Made from crates/h26x_packetizer/src/buffer/memory.rt by tools/to-rust.

//! The memory of a buffer, and how it grows.

use crate::support::AllocError;
use alloc::vec::Vec;

/// For how much a buffer has memory.
#[derive(Debug, Clone, Copy, PartialEq, Eq)]
pub struct BufferMemory {
    /// How many bytes.
    pub bytes: usize,
    /// The ends of how many packets.
    pub ends: usize,
}

/// Whether memory for so much is for twice as much as this at most, or for no more than before.
#[inline]
pub(super) fn is_at_most(memory: usize, before: usize, count: usize) -> bool {
    memory <= before.max(count.saturating_mul(2))
}

/// Takes room for so many entries more, where there is less: at least twice as much as there was, so
/// that entries that come one by one are moved few times.
#[cold]
#[inline(never)]
fn grow<T>(list: &mut Vec<T>, additional: usize) -> Result<(), AllocError> {
    let double = list.capacity().saturating_mul(2);
    list.try_reserve_exact(additional.max(double - list.len()))?;
    Ok(())
}

/// Has room for so many entries more; where it has to grow, for so many at least.
#[inline(always)]
pub(super) fn make_room<T>(
    list: &mut Vec<T>,
    additional: usize,
    least: usize,
) -> Result<(), AllocError> {
    if additional > list.capacity() - list.len() {
        grow(list, additional.max(least))?;
    }
    Ok(())
}
