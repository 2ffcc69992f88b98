// Made from crates/h26x_fmtp/src/parameters.rt by tools/to-rust.

//! Parameters by a table of what each of them is.

use crate::proved::h26x_fmtp::error::{Fault, ParametersError};
use crate::proved::h26x_fmtp::pairs::{Pair, closes, pairs_of, push_pair};
use crate::proved::h26x_fmtp::table::{ParameterRow, row_of};
use crate::support::AllocError;
use crate::support::TryVec;
use alloc::vec::Vec;

/// A parameter that a format doesn't have.
#[derive(Clone, PartialEq, Eq, Hash)]
pub struct OtherParameter {
    /// Its name, as it came.
    pub name: Vec<u8>,
    /// Its value.
    pub value: Vec<u8>,
}

/// Of bytes it tells how many there are.
impl core::fmt::Debug for OtherParameter {
    fn fmt(&self, f: &mut core::fmt::Formatter<'_>) -> core::fmt::Result {
        use crate::support::Count;
        f.debug_struct("OtherParameter")
            .field("name", &Count(self.name.len()))
            .field("value", &Count(self.value.len()))
            .finish()
    }
}

/// The values of a table's parameters, and the parameters that it doesn't have, in their order.
#[derive(Debug, Clone, PartialEq, Eq, Hash)]
pub struct FormatParameters {
    pub values: Vec<Option<Vec<u8>>>,
    pub others: Vec<OtherParameter>,
}

/// No parameters, of a table of so many rows.
pub(crate) fn none_of(rows: usize) -> Result<FormatParameters, AllocError> {
    let mut values = Vec::try_with_room(rows)?;
    while values.len() < rows {
        values.try_push(None)?;
    }
    Ok(FormatParameters {
        values,
        others: Vec::new(),
    })
}

/// Puts a value in its place.
pub(crate) fn put(values: &mut Vec<Option<Vec<u8>>>, place: usize, value: Vec<u8>) {
    values[place] = Some(value);
}

/// Takes a parameter that the table doesn't have.
fn push_other(others: &mut Vec<OtherParameter>, pair: Pair<'_>) -> Result<(), AllocError> {
    let name = Vec::try_from_slice(pair.name)?;
    let value = Vec::try_from_slice(pair.value)?;
    others.try_push(OtherParameter { name, value })?;
    Ok(())
}

/// Takes the parameter at a place. Where it is refused, or memory lacks, nothing changes.
fn take(
    rows: &[ParameterRow],
    it: &mut FormatParameters,
    place: usize,
    pair: Pair<'_>,
) -> Result<(), ParametersError> {
    let Some((row, kind)) = row_of(rows, pair.name) else {
        push_other(&mut it.others, pair)?;
        return Ok(());
    };
    if it.values[row].is_some() {
        return Err(ParametersError::Refused {
            place,
            fault: Fault::Twice,
        });
    }
    if let Some(fault) = kind.fault_in(pair.value) {
        return Err(ParametersError::Refused { place, fault });
    }
    let value = Vec::try_from_slice(pair.value)?;
    put(&mut it.values, row, value);
    Ok(())
}

/// The parameters of a text, by a table.
pub fn read(rows: &[ParameterRow], text: &[u8]) -> Result<FormatParameters, ParametersError> {
    if !closes(text) {
        return Err(ParametersError::OpenBrace);
    }
    let mut it = none_of(rows.len())?;
    let mut place: usize = 0;
    for pair in pairs_of(text) {
        take(rows, &mut it, place, pair)?;
        place += 1;
    }
    Ok(it)
}

/// The row at a place.
fn row_at(rows: &[ParameterRow], place: usize) -> &ParameterRow {
    &rows[place]
}

/// Writes a row's value, if it's given.
fn push_value(
    text: &mut Vec<u8>,
    row: &ParameterRow,
    value: &Option<Vec<u8>>,
) -> Result<(), AllocError> {
    let Some(value) = value else {
        return Ok(());
    };
    let (name, value) = (row.name, value.as_slice());
    push_pair(text, Pair { name, value })
}

/// The text of parameters: those of the table in its order, and the others behind them.
pub(crate) fn write(rows: &[ParameterRow], it: &FormatParameters) -> Result<Vec<u8>, AllocError> {
    let mut text = Vec::new();
    for place in 0..rows.len() {
        push_value(&mut text, row_at(rows, place), &it.values[place])?;
    }
    for other in &it.others {
        let (name, value) = (other.name.as_slice(), other.value.as_slice());
        push_pair(&mut text, Pair { name, value })?;
    }
    Ok(text)
}
