// Made from crates/h26x_sdp_handles/src/changed_parameters.rt by tools/to-rust.

//! Parameters of which one has another value.

use crate::proved::h26x_fmtp::{FormatParameters, OtherParameter};
use crate::support::AllocError;
use crate::support::TryVec;
use alloc::vec::Vec;

/// Whether a text would be read as one value: no `;` stands outside braces, and no brace is left open.
pub fn is_one_part(text: &[u8]) -> bool {
    let mut inside = false;
    for byte in text {
        match *byte {
            b';' if !inside => return false,
            b'{' => inside = true,
            b'}' => inside = false,
            _ => {}
        }
    }
    !inside
}

/// A copy of a value, if it's given.
fn copy_of(value: Option<&[u8]>) -> Result<Option<Vec<u8>>, AllocError> {
    match value {
        Some(value) => Ok(Some(Vec::try_from_slice(value)?)),
        None => Ok(None),
    }
}

/// The bytes of a value, if it's given.
fn bytes_of(value: &Option<Vec<u8>>) -> Option<&[u8]> {
    match value {
        Some(value) => Some(value.as_slice()),
        None => None,
    }
}

/// A copy of values.
fn copy_of_values(values: &[Option<Vec<u8>>]) -> Result<Vec<Option<Vec<u8>>>, AllocError> {
    let mut copies = Vec::new();
    for value in values {
        copies.try_push(copy_of(bytes_of(value))?)?;
    }
    Ok(copies)
}

/// A copy of what a table doesn't have.
fn copy_of_other(other: &OtherParameter) -> Result<OtherParameter, AllocError> {
    let name = Vec::try_from_slice(other.name.as_slice())?;
    let value = Vec::try_from_slice(other.value.as_slice())?;
    Ok(OtherParameter { name, value })
}

/// A copy of those that a table doesn't have.
fn copy_of_others(others: &[OtherParameter]) -> Result<Vec<OtherParameter>, AllocError> {
    let mut copies = Vec::new();
    for other in others {
        copies.try_push(copy_of_other(other)?)?;
    }
    Ok(copies)
}

/// Puts a value, or none, in its place.
fn put(values: &mut Vec<Option<Vec<u8>>>, place: usize, value: Option<Vec<u8>>) {
    values[place] = value;
}

/// A copy of parameters, with this value at a place, or with none.
pub(crate) fn with_value(
    it: &FormatParameters,
    place: usize,
    value: Option<&[u8]>,
) -> Result<FormatParameters, AllocError> {
    let mut values = copy_of_values(it.values.as_slice())?;
    let others = copy_of_others(it.others.as_slice())?;
    put(&mut values, place, copy_of(value)?);
    Ok(FormatParameters { values, others })
}
