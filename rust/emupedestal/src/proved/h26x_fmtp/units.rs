// Made from crates/h26x_fmtp/src/units.rt by tools/to-rust.

//! NAL units in base64: the values of the `sprop` parameters.

use crate::proved::h26x_fmtp::error::UnitsError;
use crate::support::AllocError;
use crate::support::base64::DecodeAllocError;
use crate::support::base64::engine::general_purpose::STANDARD;
use crate::support::{TryText, TryVec};
use alloc::{string::String, vec::Vec};
use memchr::memchr;

/// The unit of a text at a place of a list.
fn unit_of(text: &[u8], place: usize) -> Result<Vec<u8>, UnitsError> {
    match STANDARD.decode(text) {
        Ok(unit) if unit.is_empty() => Err(UnitsError::Empty { place }),
        Ok(unit) => Ok(unit),
        Err(DecodeAllocError::DecodeError(_)) => Err(UnitsError::NotBase64 { place }),
        Err(DecodeAllocError::OutOfMemory) => Err(UnitsError::OutOfMemory),
    }
}

/// What stands before the first byte of a value in a text, and behind it, if it has one.
pub fn split_piece(text: &[u8], mark: u8) -> (&[u8], Option<&[u8]>) {
    match memchr(mark, text) {
        Some(place) => (&text[..place], Some(&text[place + 1..])),
        None => (text, None),
    }
}

/// Reads NAL units: base64 with its padding (RFC 4648, section 4), and `,` between them, as in
/// `sprop-parameter-sets` (RFC 6184, section 8.1) and `sprop-vps` (RFC 7798, section 7.1).
///
/// What is refused first is told, with its place: a text that is no base64, or one without a byte.
/// They are written again as the same text.
pub fn read_units(text: &[u8]) -> Result<Vec<Vec<u8>>, UnitsError> {
    let mut units = Vec::new();
    let mut rest = Some(text);
    while let Some(text) = rest {
        let (piece, behind) = split_piece(text, b',');
        let unit = unit_of(piece, units.len())?;
        units.try_push(unit)?;
        rest = behind;
    }
    Ok(units)
}

/// Writes one more unit.
fn push_unit(text: &mut String, unit: &[u8]) -> Result<(), AllocError> {
    text.try_push_str(",")?;
    STANDARD.encode_string(unit, text)
}

/// Writes NAL units: base64, with `,` between them. They are read as the same units.
pub(crate) fn write_units(units: &[Vec<u8>]) -> Result<Vec<u8>, AllocError> {
    let mut text = String::new();
    let Some((first, others)) = units.split_first() else {
        return Ok(text.into_bytes());
    };
    STANDARD.encode_string(first.as_slice(), &mut text)?;
    for unit in others {
        push_unit(&mut text, unit.as_slice())?;
    }
    Ok(text.into_bytes())
}
