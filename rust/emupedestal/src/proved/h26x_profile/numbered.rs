// Made from crates/h26x_profile/src/numbered.rt by tools/to-rust.

//! Values that numbers in SDP name.

/// A profile, a tier or a level: one of a few values that numbers name (RFC 7798, section 7.1; RFC
/// 9328, section 7.2).
pub trait Numbered: Copy {
    /// The value with this number, if one has it.
    fn from_number(number: u8) -> Option<Self>;

    /// The value's number.
    fn to_number(self) -> u8;
}
