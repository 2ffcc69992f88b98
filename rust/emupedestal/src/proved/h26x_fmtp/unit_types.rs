// Made from crates/h26x_fmtp/src/unit_types.rt by tools/to-rust.

//! Types of NAL units, and which of them a parameter is for.

use crate::proved::h26x_fmtp::error::UnitsError;
use crate::proved::h26x_fmtp::rtp_map::Encoding;
use alloc::vec::Vec;

/// The types of NAL units that a parameter is for: those from `first` to `last` of an encoding (RFC
/// 6184, section 8.1; RFC 7798, section 7.1; RFC 9328, section 7.2).
#[derive(Debug, Clone, Copy, PartialEq, Eq)]
pub struct UnitTypes {
    /// The encoding of the units.
    pub encoding: Encoding,
    /// The lowest type.
    pub first: u8,
    /// The highest.
    pub last: u8,
}

/// A unit's type, if its header is whole: one byte of H.264, and two of H.265 and H.266.
fn unit_type(encoding: Encoding, unit: &[u8]) -> Option<u8> {
    match (encoding, unit) {
        (Encoding::H264, [first, ..]) => Some(first & 0x1f),
        (Encoding::H265, [high, _, ..]) => Some(high >> 1 & 0x3f),
        (Encoding::H266, [_, low, ..]) => Some(low >> 3 & 0x1f),
        _ => None,
    }
}

/// Whether bytes begin with a start code, `00 00 01`.
fn begins_code(bytes: &[u8]) -> bool {
    bytes.starts_with(&[0, 0, 1])
}

/// Whether a start code stands in bytes.
fn holds_code(bytes: &[u8]) -> bool {
    let mut rest = bytes;
    while let [_, behind @ ..] = rest {
        if begins_code(rest) {
            return true;
        }
        rest = behind;
    }
    false
}

impl UnitTypes {
    /// Whether a unit is of one of these types. One whose header isn't whole is of none.
    pub fn has(self, unit: &[u8]) -> bool {
        match unit_type(self.encoding, unit) {
            Some(of) => self.first <= of && of <= self.last,
            None => false,
        }
    }

    /// What is wrong with a unit at a place of a list, if anything is.
    fn unit_fault(self, place: usize, unit: &[u8]) -> Option<UnitsError> {
        if !self.has(unit) {
            return Some(UnitsError::OtherType { place });
        }
        if holds_code(unit) {
            return Some(UnitsError::StartCode { place });
        }
        None
    }

    /// What is wrong first with units, if anything is: one of another type, or with a start code
    /// inside. It takes no memory.
    pub fn fault_in(self, units: &[Vec<u8>]) -> Option<UnitsError> {
        for (place, unit) in units.iter().enumerate() {
            let fault = self.unit_fault(place, unit.as_slice());
            if fault.is_some() {
                return fault;
            }
        }
        None
    }
}

/// SPS and PPS of H.264 (RFC 6184, section 8.1).
pub const H264_SETS: UnitTypes = UnitTypes {
    encoding: Encoding::H264,
    first: 7,
    last: 8,
};

/// SPS of H.264.
pub const H264_SPS: UnitTypes = UnitTypes {
    encoding: Encoding::H264,
    first: 7,
    last: 7,
};

/// VPS of H.265 (RFC 7798, section 7.1).
pub const H265_VPS: UnitTypes = UnitTypes {
    encoding: Encoding::H265,
    first: 32,
    last: 32,
};

/// SPS of H.265 (RFC 7798, section 7.1).
pub const H265_SPS: UnitTypes = UnitTypes {
    encoding: Encoding::H265,
    first: 33,
    last: 33,
};

/// PPS of H.265 (RFC 7798, section 7.1).
pub const H265_PPS: UnitTypes = UnitTypes {
    encoding: Encoding::H265,
    first: 34,
    last: 34,
};

/// Prefix and suffix SEI of H.265 (RFC 7798, section 7.1).
pub const H265_SEI: UnitTypes = UnitTypes {
    encoding: Encoding::H265,
    first: 39,
    last: 40,
};

/// DCI of H.266 (RFC 9328, section 7.2).
pub const H266_DCI: UnitTypes = UnitTypes {
    encoding: Encoding::H266,
    first: 13,
    last: 13,
};

/// VPS of H.266 (RFC 9328, section 7.2).
pub const H266_VPS: UnitTypes = UnitTypes {
    encoding: Encoding::H266,
    first: 14,
    last: 14,
};

/// SPS of H.266 (RFC 9328, section 7.2).
pub const H266_SPS: UnitTypes = UnitTypes {
    encoding: Encoding::H266,
    first: 15,
    last: 15,
};

/// PPS of H.266 (RFC 9328, section 7.2).
pub const H266_PPS: UnitTypes = UnitTypes {
    encoding: Encoding::H266,
    first: 16,
    last: 16,
};

/// Prefix and suffix SEI of H.266 (RFC 9328, section 7.2).
pub const H266_SEI: UnitTypes = UnitTypes {
    encoding: Encoding::H266,
    first: 23,
    last: 24,
};
