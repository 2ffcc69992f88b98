//! The fallible calls of texts.

use super::AllocError;
use alloc::string::String;
use core::fmt::{self, Write};

/// The call of `String` that wants memory.
pub trait TryText {
    /// Appends a text.
    fn try_push_str(&mut self, text: &str) -> Result<(), AllocError>;
}

impl TryText for String {
    fn try_push_str(&mut self, text: &str) -> Result<(), AllocError> {
        self.try_reserve(text.len())?;
        self.push_str(text);
        Ok(())
    }
}

/// A text that is written piece by piece; it answers an error where memory lacks.
struct Pieces(String);

impl Write for Pieces {
    fn write_str(&mut self, text: &str) -> fmt::Result {
        self.0.try_push_str(text).map_err(|_| fmt::Error)
    }
}

/// The text of `format_args!`.
pub fn try_format(of: fmt::Arguments<'_>) -> Result<String, AllocError> {
    let mut pieces = Pieces(String::new());
    pieces.write_fmt(of).map_err(|_| AllocError)?;
    Ok(pieces.0)
}
