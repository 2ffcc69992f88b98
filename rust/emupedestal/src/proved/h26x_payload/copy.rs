// Made from crates/h26x_payload/src/copy.rt by tools/to-rust.

//! Bytes that are put one behind the other.

/// Copies bytes to a place of memory; the place behind them.
#[inline(always)]
pub(crate) fn copy_bytes(from: &[u8], place: usize, to: &mut [u8]) -> usize {
    let end = place + from.len();
    if !from.is_empty() {
        to[place..end].copy_from_slice(from);
    }
    end
}
