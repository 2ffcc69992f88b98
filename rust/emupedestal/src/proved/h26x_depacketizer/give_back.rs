// Made from crates/h26x_depacketizer/src/give_back.rt by tools/to-rust.

//! Memory that goes back where less serves.

use crate::proved::h26x_depacketizer::run::{memory_of, most_memory};
use alloc::vec::Vec;

/// Moves bytes into memory of their own length, where that is asked for, or theirs has more than a run
/// of so many bytes may have. Whether it has no more now; where there is no other memory they stay
/// where they are.
pub(crate) fn give_back(bytes: &mut Vec<u8>, is_asked_for: bool) -> bool {
    let len = bytes.len();
    if !is_asked_for && bytes.capacity() <= most_memory(len) {
        return true;
    }
    match memory_of(len, bytes, &[]) {
        Ok(smaller) => {
            *bytes = smaller;
            true
        }
        Err(_) => false,
    }
}
