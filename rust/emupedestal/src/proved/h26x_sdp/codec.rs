// Made from crates/h26x_sdp/src/codec.rt by tools/to-rust.

//! The format parameters of a codec, by the table of them that its RFC registers.

use crate::proved::h26x_fmtp::{
    FormatParameters, OtherParameter, ParameterRow, ParametersError, UnitsError, parameters,
    read_units,
};
use crate::support::AllocError;
use alloc::vec::Vec;
use core::marker::PhantomData;

/// A format parameter that the RFC of a codec's payload registers.
pub trait CodecParameter: Copy {
    /// All of them, in the order in which they are written.
    fn rows() -> &'static [ParameterRow];

    /// The parameter's place among them, from 0.
    fn place(self) -> usize;
}

/// The format parameters of a codec: what an `a=fmtp` line says behind the payload type.
#[derive(Debug, Clone, PartialEq, Eq, Hash)]
pub struct CodecParameters<P: CodecParameter> {
    parameters: FormatParameters,
    of: PhantomData<P>,
}

impl<P: CodecParameter> CodecParameters<P> {
    /// Reads the value of an `a=fmtp` line.
    ///
    /// Names are read without regard to case, white space round `;` and `=` and blank parts are left
    /// out, and parameters that the RFC doesn't have are kept, in their order. What is refused first
    /// is told, with its place: a value that is none of its parameter, or a parameter that is given
    /// twice.
    pub fn read(text: &[u8]) -> Result<Self, ParametersError> {
        let parameters = parameters::read(P::rows(), text)?;
        Ok(CodecParameters {
            parameters,
            of: PhantomData,
        })
    }

    /// The parameters of these values, one for each of the table.
    pub(crate) fn of_parameters(parameters: FormatParameters) -> Self {
        CodecParameters {
            parameters,
            of: PhantomData,
        }
    }

    /// Their values, one for each of the table, and the others.
    pub fn parameters(&self) -> &FormatParameters {
        &self.parameters
    }

    /// None of the parameters.
    pub(crate) fn none() -> Result<Self, AllocError> {
        let parameters = parameters::none_of(P::rows().len())?;
        Ok(CodecParameters {
            parameters,
            of: PhantomData,
        })
    }

    /// Gives a parameter a value.
    pub(crate) fn put(&mut self, parameter: P, value: Vec<u8>) {
        parameters::put(&mut self.parameters.values, parameter.place(), value);
    }

    /// Writes the value of an `a=fmtp` line: the parameters in the RFC's order, and the others behind
    /// them. It is read as the same parameters.
    pub(crate) fn write(&self) -> Result<Vec<u8>, AllocError> {
        parameters::write(P::rows(), &self.parameters)
    }

    /// The value of a parameter, as it came; `None` where it's absent.
    pub fn value(&self, parameter: P) -> Option<&[u8]> {
        let value = self.parameters.values.get(parameter.place())?.as_ref()?;
        Some(value.as_slice())
    }

    /// The number of a parameter; `None` where it's absent, and for those that are no numbers.
    pub fn number(&self, parameter: P) -> Option<u64> {
        let row = P::rows().get(parameter.place())?;
        row.kind.number_of(self.value(parameter)?)
    }

    /// The value of a parameter, or where it's absent the one that the RFC gives for it; `None` where
    /// it gives none, as where the level says it or another parameter does.
    pub fn value_or_default(&self, parameter: P) -> Option<&[u8]> {
        match self.value(parameter) {
            Some(value) => Some(value),
            None => P::rows().get(parameter.place())?.default,
        }
    }

    /// The number of a parameter, or where it's absent the one that the RFC gives for it; `None` where
    /// it gives none, and for those that are no numbers.
    pub fn number_or_default(&self, parameter: P) -> Option<u64> {
        let row = P::rows().get(parameter.place())?;
        row.kind.number_of(self.value_or_default(parameter)?)
    }

    /// The NAL units of a parameter, out of base64; `None` where it's absent, and for those that aren't
    /// units.
    ///
    /// What is refused first is told, with its place among the units: a text that is no base64 or
    /// has no byte, and where all are units, one that is of no type that the parameter is for, or has
    /// a start code inside.
    pub fn units(&self, parameter: P) -> Result<Option<Vec<Vec<u8>>>, UnitsError> {
        let (Some(row), Some(value)) = (P::rows().get(parameter.place()), self.value(parameter))
        else {
            return Ok(None);
        };
        let Some(types) = row.kind.unit_types() else {
            return Ok(None);
        };
        let units = read_units(value)?;
        match types.fault_in(units.as_slice()) {
            Some(error) => Err(error),
            None => Ok(Some(units)),
        }
    }

    /// The parameters that the RFC doesn't have, in their order.
    pub fn others(&self) -> &[OtherParameter] {
        self.parameters.others.as_slice()
    }
}
