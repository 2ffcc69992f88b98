// Made from crates/h26x_core/src/pieces.rt by tools/to-rust.

//! Units behind lengths of two bytes, as aggregation packets have them (RFC 6184, 5.7.1; RFC 7798,
//! 4.4.2; RFC 9328, 4.3.2).

/// The first piece of bytes and what stands behind it, or its length where that passes the end
/// (RFC 6184, 5.7.1; RFC 7798, 4.4.2; RFC 9328, 4.3.2).
#[inline]
pub(crate) fn first_piece(bytes: &[u8]) -> Result<(&[u8], &[u8]), usize> {
    let len = usize::from(bytes[0]) * 256 + usize::from(bytes[1]);
    let behind = &bytes[2..];
    if behind.len() < len {
        return Err(len);
    }
    Ok((&behind[..len], &behind[len..]))
}
