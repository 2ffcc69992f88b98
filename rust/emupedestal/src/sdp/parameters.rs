//! The parameters of any of the codecs.

use super::{H264Parameter, H265Parameter, H266Parameter};
use super::{ParametersError, SetError, UnitsError};
use crate::proved::h26x_answers::{CodecDeclared, CodecStreams};
use crate::proved::h26x_fmtp as proved;
use crate::proved::h26x_sdp as codecs;
use alloc::string::String;
use alloc::vec::Vec;
use core::fmt;
use core::hash::Hash;
use core::str::{self, FromStr};

/// A format parameter of one of the codecs: [`H264Parameter`], [`H265Parameter`] or [`H266Parameter`], and no other.
pub trait Parameter: CodecStreams + CodecDeclared + fmt::Debug + Eq + Hash + 'static {
    /// All of them, in the order in which they are written.
    fn all() -> &'static [Self];

    /// The name by which it is written.
    fn name(self) -> &'static str {
        Self::rows()
            .get(self.place())
            .map_or("", |row| text(row.name))
    }

    /// The parameter of a name, without regard to case; `None` where the RFC has none of it.
    fn of_name(name: &str) -> Option<Self> {
        let (place, _) = proved::row_of(Self::rows(), name.as_bytes())?;
        Self::all().get(place).copied()
    }
}

macro_rules! parameters {
    ($($name:ident),*) => {$(
        impl Parameter for $name {
            fn all() -> &'static [Self] {
                &Self::ALL
            }
        }

        /// Its name.
        impl fmt::Display for $name {
            fn fmt(&self, f: &mut fmt::Formatter<'_>) -> fmt::Result {
                f.pad(self.name())
            }
        }
    )*};
}

parameters!(H264Parameter, H265Parameter, H266Parameter);

/// The format parameters of a codec: what an `a=fmtp` line says behind the payload type.
///
/// It is [`H264Parameters`](super::H264Parameters), [`H265Parameters`](super::H265Parameters) or
/// [`H266Parameters`](super::H266Parameters), each with calls for its own parameters. Read it by [`str::parse`], write
/// it by [`ToString::to_string`](alloc::string::ToString::to_string) or `format!`, and begin a format of your own with
/// `default()`, which has no parameter. Two formats are equal where they have the same values as texts, `42e01f` being
/// another than `42E01F`, and the same other parameters in the same order.
#[derive(Clone, PartialEq, Eq, Hash)]
pub struct CodecParameters<P: Parameter> {
    /// Read of a text, so that each slice of it is one.
    pub(super) of: codecs::CodecParameters<P>,
}

/// A slice of a text.
fn text(bytes: &[u8]) -> &str {
    str::from_utf8(bytes).unwrap_or_default()
}

impl<P: Parameter> CodecParameters<P> {
    /// The value of a parameter, as it came; `None` where it is absent.
    pub fn value(&self, parameter: P) -> Option<&str> {
        self.of.value(parameter).map(text)
    }

    /// The value of a parameter, or where it is absent the one that the RFC takes for it; `None` where the RFC has
    /// none, as where the level says it or another parameter does.
    pub fn value_or_default(&self, parameter: P) -> Option<&str> {
        self.of.value_or_default(parameter).map(text)
    }

    /// The number of a parameter; `None` where it is absent, and for those that are no numbers.
    pub fn number(&self, parameter: P) -> Option<u64> {
        self.of.number(parameter)
    }

    /// The number of a parameter, or where it is absent the one that the RFC takes for it; `None` where the RFC has
    /// none, and for those that are no numbers.
    pub fn number_or_default(&self, parameter: P) -> Option<u64> {
        self.of.number_or_default(parameter)
    }

    /// The NAL units of a parameter, out of base64: none where it is absent, and for those that aren't units.
    ///
    /// # Errors
    ///
    /// The first unit that is none is told by its place.
    pub fn units(&self, parameter: P) -> Result<Vec<Vec<u8>>, UnitsError> {
        Ok(self.of.units(parameter)?.unwrap_or_default())
    }

    /// The parameters that are given, names and values in the order in which they are written.
    pub fn iter(&self) -> impl Iterator<Item = (&str, &str)> {
        let given = P::all().iter();
        let given = given.filter_map(|it| Some((it.name(), self.value(*it)?)));
        given.chain(self.others())
    }

    /// The parameters that the RFC doesn't have, names and values in the order in which they came. The same name may
    /// be there twice.
    pub fn others(&self) -> impl ExactSizeIterator<Item = (&str, &str)> {
        let others = self.of.others().iter();
        others.map(|other| (text(&other.name), text(&other.value)))
    }
}

impl<P: Parameter> CodecParameters<P> {
    /// Gives a parameter a value, in the place of the one that it has; white space at its ends is left out.
    ///
    /// # Errors
    ///
    /// A value that is none of the parameter, or that would be read as more than one parameter. Nothing changes
    /// then.
    pub fn set(&mut self, parameter: P, value: &str) -> Result<(), SetError> {
        let (name, value) = (parameter.name().as_bytes(), value.trim_ascii().as_bytes());
        let pair = proved::Pair { name, value };
        let mut text = Vec::new();
        proved::push_pair(&mut text, pair)?;
        if !proved::closes(&text) || !proved::pairs_of(&text).eq([pair]) {
            return Err(SetError::NotAValue);
        }
        self.read_with_others_than(parameter, text)
    }

    /// Gives a parameter NAL units, in base64.
    ///
    /// # Errors
    ///
    /// As of [`set`](Self::set): a parameter that has no units.
    pub fn set_units(&mut self, parameter: P, units: &[Vec<u8>]) -> Result<(), SetError> {
        let value = write_units(units).map_err(|_| SetError::OutOfMemory)?;
        self.set(parameter, &value)
    }

    /// Takes a parameter's value away, if it has one.
    ///
    /// # Errors
    ///
    /// Where memory lacks; nothing changes then.
    pub fn remove(&mut self, parameter: P) -> Result<(), SetError> {
        self.read_with_others_than(parameter, Vec::new())
    }

    /// Reads the parameters of a text, and of this format all but one behind them.
    fn read_with_others_than(&mut self, one: P, mut text: Vec<u8>) -> Result<(), SetError> {
        let given = P::all().iter().filter(|it| **it != one);
        let given = given.filter_map(|it| Some((it.name(), self.value(*it)?)));
        for (name, value) in given.chain(self.others()) {
            let (name, value) = (name.as_bytes(), value.as_bytes());
            proved::push_pair(&mut text, proved::Pair { name, value })?;
        }
        self.of = codecs::CodecParameters::read(&text).map_err(|error| match error {
            ParametersError::Refused { fault, .. } => SetError::Fault(fault),
            ParametersError::OutOfMemory => SetError::OutOfMemory,
            ParametersError::OpenBrace => SetError::NotAValue,
        })?;
        Ok(())
    }
}

/// A format without parameters.
impl<P: Parameter> Default for CodecParameters<P> {
    fn default() -> Self {
        "".parse().expect("memory")
    }
}

/// Reads what stands behind the payload type in an `a=fmtp` line.
impl<P: Parameter> FromStr for CodecParameters<P> {
    type Err = ParametersError;

    fn from_str(text: &str) -> Result<Self, ParametersError> {
        let of = codecs::CodecParameters::read(text.as_bytes())?;
        Ok(CodecParameters { of })
    }
}

/// Writes what stands behind the payload type in an `a=fmtp` line. Where memory lacks that is a [`fmt::Error`].
impl<P: Parameter> fmt::Display for CodecParameters<P> {
    fn fmt(&self, f: &mut fmt::Formatter<'_>) -> fmt::Result {
        f.write_str(text(&self.of.write().map_err(|_| fmt::Error)?))
    }
}

/// Names and values.
impl<P: Parameter> fmt::Debug for CodecParameters<P> {
    fn fmt(&self, f: &mut fmt::Formatter<'_>) -> fmt::Result {
        f.debug_map().entries(self.iter()).finish()
    }
}

/// Reads NAL units: base64 with its padding (RFC 4648, section 4), and `,` between them, as in
/// `sprop-parameter-sets`.
///
/// # Errors
///
/// The first that is none is told by its place: a text that is no base64, or one without a byte.
pub fn read_units(text: &str) -> Result<Vec<Vec<u8>>, UnitsError> {
    proved::read_units(text.as_bytes())
}

/// Writes NAL units: base64, with `,` between them. They are read as the same units where each has a byte.
///
/// # Errors
///
/// Where memory lacks.
pub fn write_units(units: &[Vec<u8>]) -> Result<String, UnitsError> {
    let text = proved::write_units(units)?;
    Ok(String::from_utf8(text).unwrap_or_default())
}
