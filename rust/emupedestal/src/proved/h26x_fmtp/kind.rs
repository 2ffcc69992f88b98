// Made from crates/h26x_fmtp/src/kind.rt by tools/to-rust.

//! What the value of a parameter is.

use crate::proved::h26x_fmtp::error::Fault;
use crate::proved::h26x_fmtp::names::same_name;
use crate::proved::h26x_fmtp::unit_types::UnitTypes;
use core::str;

/// What the value of a parameter is.
#[derive(Debug, Clone, Copy, PartialEq, Eq)]
pub enum Kind {
    /// A decimal number from `least` to `most`.
    Number { least: u64, most: u64 },
    /// A number up to `most`, by hexadecimal digits in either case.
    HexadecimalNumber { most: u64 },
    /// So many bytes, each by two hexadecimal digits in either case.
    Hexadecimal { bytes: u8 },
    /// `SRST`, `MRST` or `MRMT`, in either case (RFC 7798, section 7.1).
    TxMode,
    /// NAL units of these types in base64, with `,` between them, which `units` looks into.
    Units(UnitTypes),
    /// A text that no rule of this crate looks into.
    Text,
}

/// The kind of a parameter that says yes or no.
pub const FLAG: Kind = Kind::Number { least: 0, most: 1 };

/// The kind of a TID.
pub const SUB_LAYER: Kind = Kind::Number { least: 0, most: 6 };

/// The kind of a number that is of 8 bits.
pub const BITS_8: Kind = Kind::Number {
    least: 0,
    most: 255,
};

/// The kind of a number that is of 15 bits.
pub const BITS_15: Kind = Kind::Number {
    least: 0,
    most: 32767,
};

/// The kind of a number that is of 32 bits.
pub const BITS_32: Kind = Kind::Number {
    least: 0,
    most: 4294967295,
};

/// The kind of a number that is of 64 bits.
pub const BITS_64: Kind = Kind::Number {
    least: 0,
    most: 18446744073709551615,
};

impl Kind {
    /// What is wrong with a value of this kind, if anything is. It takes no memory.
    pub fn fault_in(self, value: &[u8]) -> Option<Fault> {
        match self {
            Kind::Number { least, most } => match number_in(value) {
                Err(fault) => Some(fault),
                Ok(number) if least <= number && number <= most => None,
                Ok(_) => Some(Fault::OutOfRange),
            },
            Kind::HexadecimalNumber { most } => match hexadecimal_number_in(value) {
                Err(fault) => Some(fault),
                Ok(number) if number <= most => None,
                Ok(_) => Some(Fault::OutOfRange),
            },
            Kind::Hexadecimal { bytes } => {
                if value.len() == 2 * usize::from(bytes) && are_digits(value, 16) {
                    None
                } else {
                    Some(Fault::NotHexadecimal)
                }
            }
            Kind::TxMode => {
                if is_tx_mode(value) {
                    None
                } else {
                    Some(Fault::NotTxMode)
                }
            }
            Kind::Units(_) | Kind::Text => None,
        }
    }

    /// The types of the units, if the kind is units.
    pub fn unit_types(self) -> Option<UnitTypes> {
        match self {
            Kind::Units(types) => Some(types),
            _ => None,
        }
    }

    /// The number that a value says, if the kind is a number's.
    pub fn number_of(self, value: &[u8]) -> Option<u64> {
        match self {
            Kind::Number { .. } => number_in(value).ok(),
            Kind::HexadecimalNumber { .. } => hexadecimal_number_in(value).ok(),
            Kind::Hexadecimal { .. } | Kind::TxMode | Kind::Units(_) | Kind::Text => None,
        }
    }
}

/// Whether a text is one of the modes of RFC 7798, section 7.1, in either case.
fn is_tx_mode(text: &[u8]) -> bool {
    same_name(b"SRST", text) || same_name(b"MRST", text) || same_name(b"MRMT", text)
}

/// Whether each byte of a text is a digit, in either case.
fn are_digits(text: &[u8], radix: u32) -> bool {
    for byte in text {
        if !char::from(*byte).is_digit(radix) {
            return false;
        }
    }
    true
}

/// The number that a text of digits says: digits alone, without a sign. Another text has the fault
/// that is given.
fn digits_number(text: &[u8], radix: u32, other: Fault) -> Result<u64, Fault> {
    if text.is_empty() || !are_digits(text, radix) {
        return Err(other);
    }
    match str::from_utf8(text) {
        Ok(digits) => match u64::from_str_radix(digits, radix) {
            Ok(number) => Ok(number),
            Err(_) => Err(Fault::OutOfRange),
        },
        Err(_) => Err(other),
    }
}

/// The number that a text of decimal digits says: digits alone, without a sign.
pub fn number_in(text: &[u8]) -> Result<u64, Fault> {
    digits_number(text, 10, Fault::NotANumber)
}

/// The number that a text of hexadecimal digits says, in either case.
fn hexadecimal_number_in(text: &[u8]) -> Result<u64, Fault> {
    digits_number(text, 16, Fault::NotHexadecimal)
}
