// Made from crates/h26x_sdp_handles/src/kept_parameters.rt by tools/to-rust.

//! Format parameters with the units that they have, read once.

use crate::proved::h26x_codes::code::OUT_OF_MEMORY;
use crate::proved::h26x_fmtp::{Kind, ParametersError, UnitsError, row_of, trimmed};
use crate::proved::h26x_sdp::CodecParameters;
use crate::proved::h26x_sdp_handles::changed_parameters::{is_one_part, with_value};
use crate::proved::h26x_sdp_handles::sdp_code::{
    ABSENT, NOT_A_VALUE, OTHER_KIND, Refused, UNKNOWN_NAME, code_of_fault, of_units, refused_with,
};
use crate::proved::h26x_sdp_handles::sdp_parameter::ListedParameter;
use crate::support::TryVec;
use alloc::vec::Vec;

/// The units of a parameter: none where it's absent or no units, or why they are none.
type Kept = Option<Result<Vec<Vec<u8>>, UnitsError>>;

/// Format parameters, and the units of each. What they have beside the parameters is bounded by the
/// parameters' texts.
pub struct KeptParameters<P: ListedParameter> {
    parameters: CodecParameters<P>,
    units: Vec<Kept>,
}

/// Whether a parameter is units.
fn is_units(kind: Kind) -> bool {
    match kind {
        Kind::Units(_) => true,
        _ => false,
    }
}

/// The units of a parameter.
fn kept_of<P: ListedParameter>(it: &CodecParameters<P>, parameter: P) -> Result<Kept, u32> {
    match it.units(parameter) {
        Ok(Some(units)) => Ok(Some(Ok(units))),
        Ok(None) => Ok(None),
        Err(UnitsError::OutOfMemory) => Err(OUT_OF_MEMORY),
        Err(error) => Ok(Some(Err(error))),
    }
}

/// The units of all.
fn all_units<P: ListedParameter>(it: &CodecParameters<P>) -> Result<Vec<Kept>, u32> {
    let all = P::all();
    let mut kept = Vec::new();
    for parameter in all {
        let units = kept_of(it, *parameter)?;
        if kept.try_push(units).is_err() {
            return Err(OUT_OF_MEMORY);
        }
    }
    Ok(kept)
}

/// Those at a place.
fn kept_at(kept: &[Kept], place: usize) -> &Kept {
    &kept[place]
}

impl<P: ListedParameter> KeptParameters<P> {
    /// Parameters with their units.
    pub(crate) fn of(parameters: CodecParameters<P>) -> Result<Self, u32> {
        let units = all_units(&parameters)?;
        Ok(KeptParameters { parameters, units })
    }

    /// Reads what stands behind the payload type in an `a=fmtp` line.
    pub fn read(text: &[u8]) -> Result<Self, ParametersError> {
        let parameters = CodecParameters::read(text)?;
        match KeptParameters::of(parameters) {
            Ok(it) => Ok(it),
            Err(_) => Err(ParametersError::OutOfMemory),
        }
    }

    /// The parameters.
    pub fn parameters(&self) -> &CodecParameters<P> {
        &self.parameters
    }

    /// The same with this value at a place, or with none.
    fn with_value_at(&self, place: usize, value: Option<&[u8]>) -> Result<Self, u32> {
        match with_value(self.parameters.parameters(), place, value) {
            Ok(it) => KeptParameters::of(CodecParameters::of_parameters(it)),
            Err(_) => Err(OUT_OF_MEMORY),
        }
    }

    /// The same with a value of the parameter with a name, without regard to case; white space at its
    /// ends is left out.
    pub fn with_named_value(&self, name: &[u8], value: &[u8]) -> Result<Self, u32> {
        let Some((place, kind)) = row_of(P::rows(), name) else {
            return Err(UNKNOWN_NAME);
        };
        let value = trimmed(value);
        if !is_one_part(value) {
            return Err(NOT_A_VALUE);
        }
        match kind.fault_in(value) {
            Some(fault) => Err(code_of_fault(fault)),
            None => self.with_value_at(place, Some(value)),
        }
    }

    /// The same without a value of the parameter with a name, without regard to case.
    pub fn without_named_value(&self, name: &[u8]) -> Result<Self, u32> {
        match row_of(P::rows(), name) {
            Some((place, _)) => self.with_value_at(place, None),
            None => Err(UNKNOWN_NAME),
        }
    }

    /// The units of the parameter with a name, without regard to case.
    pub fn units(&self, name: &[u8]) -> Result<&[Vec<u8>], Refused> {
        let Some((place, kind)) = row_of(P::rows(), name) else {
            return Err(refused_with(UNKNOWN_NAME));
        };
        if !is_units(kind) {
            return Err(refused_with(OTHER_KIND));
        }
        match kept_at(self.units.as_slice(), place) {
            Some(Ok(units)) => Ok(units.as_slice()),
            Some(Err(error)) => Err(of_units(*error)),
            None => Err(refused_with(ABSENT)),
        }
    }
}
