// Made from crates/h26x_cut/src/marks.rt by tools/to-rust.

//! The marks of start codes: each is found by a call of memchr, and the two bytes before it are looked
//! at; where many bytes 01 are none, `behind.rt` and `portable.rt` go on by memchr's `memmem`.

use memchr::memchr;

/// The nearest zeros of a start code, and its mark.
pub const CODE: &[u8] = &[0, 0, 1];

/// The last byte of a start code.
const MARK: u8 = 1;

/// The next byte 01 that a start code at a place or behind it may end in, by memchr.
#[inline(always)]
pub(crate) fn next_mark(bytes: &[u8], place: usize) -> Option<usize> {
    let near = memchr(MARK, bytes.get(place + 2..)?)?;
    Some(place + 2 + near)
}

/// Whether two zeros stand before a byte.
#[inline(always)]
pub(crate) fn is_behind_zeros(bytes: &[u8], mark: usize) -> bool {
    bytes[mark - 1] == 0 && bytes[mark - 2] == 0
}
