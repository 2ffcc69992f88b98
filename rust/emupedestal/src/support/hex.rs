//! What the proved modules call of the crate `hex`, over the crate `data-encoding`, by calls that answer an error where
//! memory lacks: two digits of base 16 a byte, read in either case.

use super::AllocError;
use alloc::string::String;
use data_encoding::{HEXLOWER, HEXLOWER_PERMISSIVE};

/// The text isn't two digits for each of the bytes.
#[derive(Debug)]
pub struct FromHexError;

/// What is read of digits.
pub trait FromHex: Sized {
    /// Why it isn't.
    type Error;

    /// The bytes that digits say.
    fn from_hex<T: AsRef<[u8]>>(digits: T) -> Result<Self, Self::Error>;
}

impl<const N: usize> FromHex for [u8; N] {
    type Error = FromHexError;

    fn from_hex<T: AsRef<[u8]>>(digits: T) -> Result<Self, FromHexError> {
        let (digits, mut bytes) = (digits.as_ref(), [0; N]);
        if HEXLOWER_PERMISSIVE.decode_len(digits.len()) != Ok(N) {
            return Err(FromHexError);
        }
        match HEXLOWER_PERMISSIVE.decode_mut(digits, &mut bytes) {
            Ok(_) => Ok(bytes),
            Err(_) => Err(FromHexError),
        }
    }
}

/// The digits of bytes, in lower case.
pub fn encode<T: AsRef<[u8]>>(bytes: T) -> Result<String, AllocError> {
    let bytes = bytes.as_ref();
    let mut text = String::new();
    text.try_reserve(HEXLOWER.encode_len(bytes.len()))?;
    for byte in bytes {
        let mut digits = [0; 2];
        HEXLOWER.encode_mut(&[*byte], &mut digits);
        text.extend(digits.map(char::from));
    }
    Ok(text)
}
