// Made from crates/h26x_cut/src/codes.rt by tools/to-rust.

//! What stands behind start codes.

use crate::proved::h26x_cut::marks::CODE;
use crate::proved::h26x_cut::search::first_code;

/// What stands behind the first start code of bytes, up to their end: for a caller who looks at how
/// units begin, and needs none behind the last that he looks at (Annex B of H.264, H.265 and H.266).
pub fn behind_code(bytes: &[u8]) -> Option<&[u8]> {
    match first_code(bytes) {
        Some(place) => Some(&bytes[place + CODE.len()..]),
        None => None,
    }
}
