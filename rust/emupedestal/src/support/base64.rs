//! What the proved modules call of the crate `base64`, over the crate `data-encoding`: base64 of RFC 4648,
//! section 4, with its padding, by calls that answer an error where memory lacks. Debian has two versions of
//! `base64` that have no such call in common.

use super::AllocError;
use alloc::string::String;
use alloc::vec::Vec;
use data_encoding::BASE64;
use memchr::memchr;

/// The text is no base64.
#[derive(Debug)]
pub struct DecodeError;

/// Why a text isn't decoded.
#[derive(Debug)]
pub enum DecodeAllocError {
    /// The text is no base64.
    DecodeError(DecodeError),
    /// There was no memory.
    OutOfMemory,
}

impl From<DecodeError> for DecodeAllocError {
    fn from(error: DecodeError) -> Self {
        DecodeAllocError::DecodeError(error)
    }
}

pub mod engine {
    pub mod general_purpose {
        pub use super::super::STANDARD;
    }
}

/// The engine of that base64.
pub struct Standard;

/// The engine of that base64.
pub const STANDARD: Standard = Standard;

impl Standard {
    /// The bytes of a text.
    pub fn decode(&self, text: &[u8]) -> Result<Vec<u8>, DecodeAllocError> {
        let room = BASE64.decode_len(text.len()).map_err(|_| DecodeError)?;
        // data-encoding takes texts one behind the other, each with its padding.
        if memchr(b'=', text).is_some_and(|first| first + 2 < text.len()) {
            return Err(DecodeError.into());
        }
        let mut bytes = Vec::new();
        bytes
            .try_reserve_exact(room)
            .map_err(|_| DecodeAllocError::OutOfMemory)?;
        bytes.resize(room, 0);
        let len = BASE64
            .decode_mut(text, &mut bytes)
            .map_err(|_| DecodeError)?;
        bytes.truncate(len);
        Ok(bytes)
    }

    /// The text of bytes.
    pub fn encode<T: AsRef<[u8]>>(&self, bytes: T) -> Result<String, AllocError> {
        let mut text = String::new();
        self.encode_string(bytes.as_ref(), &mut text)?;
        Ok(text)
    }

    /// Appends the text of bytes to another.
    pub fn encode_string(&self, bytes: &[u8], text: &mut String) -> Result<(), AllocError> {
        text.try_reserve(BASE64.encode_len(bytes.len()))?;
        for piece in bytes.chunks(PIECE) {
            let mut digits = [0; DIGITS];
            let digits = &mut digits[..BASE64.encode_len(piece.len())];
            BASE64.encode_mut(piece, digits);
            text.extend(digits.iter().map(|digit| char::from(*digit)));
        }
        Ok(())
    }
}

/// So many bytes are encoded at a time: whole groups of three, of which each is four digits.
const PIECE: usize = 192;
const DIGITS: usize = PIECE / 3 * 4;
