// Made from crates/h26x_cut/src/portable.rt by tools/to-rust.

//! The search for start codes behind a byte 01 that ends none, by memchr alone: it stands in the
//! place of `behind` for compilers without `std::simd`.

use crate::proved::h26x_cut::marks::{CODE, is_behind_zeros, next_mark};
use memchr::memmem;

/// How many bytes 01 that end no start code are tried before whole start codes are searched for.
const PATIENCE: usize = 2;

/// Where the first start code of bytes begins of which none begins up to a byte 01.
#[inline(never)]
pub(crate) fn first_behind(bytes: &[u8], mark: usize) -> Option<usize> {
    let (mut place, mut failed) = (mark + 1, 0);
    while failed < PATIENCE {
        let mark = next_mark(bytes, place)?;
        if is_behind_zeros(bytes, mark) {
            return Some(mark - 2);
        }
        failed += 1;
        place = mark + 1;
    }
    let rest = memmem::find(&bytes[place..], CODE)?;
    Some(place + rest)
}
