// Made from crates/h26x_cut/src/lengths.rt by tools/to-rust.

//! The units of a text behind lengths, by their places.

use core::ops::Range;

/// The length at the front of a text, and what stands behind it.
fn first_length(text: &[u8]) -> Option<(usize, &[u8])> {
    if text.len() < 4 {
        return None;
    }
    let len = u32::from_be_bytes([text[0], text[1], text[2], text[3]]);
    Some((len as usize, &text[4..]))
}

/// Where the next unit stands of a text in AVC form, each unit behind its length of four bytes: the
/// first one whose length begins at a place or behind it.
///
/// From 0 on it finds the first unit, and from the end of one the next. Empty units are left out.
/// `None` where no unit is left, or what is left has fewer bytes than its length tells; of a text
/// that is whole the last unit ends at its end. It takes no memory and refuses nothing (ISO/IEC
/// 14496-15).
pub fn next_avc_unit(text: &[u8], from: usize) -> Option<Range<usize>> {
    let mut rest = text.get(from..)?;
    while let Some((len, units)) = first_length(rest) {
        if len > units.len() {
            return None;
        }
        if len > 0 {
            let begin = text.len() - units.len();
            return Some(begin..begin + len);
        }
        rest = units;
    }
    None
}
