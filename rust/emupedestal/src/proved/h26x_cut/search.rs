// Made from crates/h26x_cut/src/search.rt by tools/to-rust.

//! The search for start codes.

use crate::proved::h26x_cut::marks::{is_behind_zeros, next_mark};
use crate::proved::h26x_cut::portable::first_behind;

/// Where the first start code of bytes begins, by its two nearest zeros.
///
/// The next byte 01 is found, and the two bytes before it are looked at.
pub fn first_code(bytes: &[u8]) -> Option<usize> {
    let mark = next_mark(bytes, 0)?;
    if is_behind_zeros(bytes, mark) {
        Some(mark - 2)
    } else {
        first_behind(bytes, mark)
    }
}
