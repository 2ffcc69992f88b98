// Made from crates/h26x_rtp/src/memory.rt by tools/to-rust.

//! Bytes written to memory of the caller.

use crate::proved::h26x_rtp::error::RtpWriteError;

/// Copies bytes to a place of memory; the place behind them.
#[inline(always)]
pub(crate) fn put(bytes: &[u8], place: usize, to: &mut [u8]) -> usize {
    let end = place + bytes.len();
    to[place..end].copy_from_slice(bytes);
    end
}

/// Copies bytes and a payload behind them to the front of memory where there is room for both.
fn put_both(head: &[u8], payload: &[u8], to: &mut [u8]) {
    let behind = put(head, 0, to);
    put(payload, behind, to);
}

/// Writes bytes and a payload behind them to the front of memory; how many these are.
pub fn write_behind(head: &[u8], payload: &[u8], to: &mut [u8]) -> Result<usize, RtpWriteError> {
    let size = head.len().saturating_add(payload.len());
    if to.len() < size {
        return Err(RtpWriteError::NoRoom(size));
    }
    put_both(head, payload, to);
    Ok(size)
}
