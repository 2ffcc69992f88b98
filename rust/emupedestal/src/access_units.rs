//! Which units of a stream are of one access unit: the packets of one have one RTP timestamp, and its
//! last one the marker.
//!
//! It is told by the types of units and the first bit behind their headers, without a parameter set:
//!
//! | | an access unit begins, once a slice came, at |
//! |---|---|
//! | H.264, 7.4.1.2.3 and 7.4.1.2.4 | a unit of types 6 to 9 or 14 to 18, or a slice whose `first_mb_in_slice` is 0 |
//! | H.265, 7.4.2.4.4 | a unit of `nuh_layer_id` 0 of types 32 to 35, 39, 41 to 44 or 48 to 55, or a slice with `first_slice_segment_in_pic_flag` |
//! | H.266, 7.4.2.4.3 | a unit of types 12 to 17, 19, 23, 26, 28 or 29, or a slice with `sh_picture_header_in_slice_header_flag`, of no higher layer than the slice before it; and a unit of type 20 of any layer |
//!
//! Not told: pictures of H.264 whose slices come in arbitrary order, redundant pictures, and pictures
//! of several slices with a prefix unit (type 14) before each. They are cut at each such slice.
//!
//! Streams are read in Annex B form; [`FromLengths`] makes it of units behind lengths.
//!
//! ```
//! use emupedestal::Codec;
//! use emupedestal::access_units::{AccessUnitReader, access_units};
//!
//! // A delimiter and a picture of two slices, and then a picture of one.
//! let stream = [
//!     0, 0, 0, 1, 0x09, 0x10, 0, 0, 1, 0x65, 0x88, 7, 0, 0, 1, 0x65, 0x42, 7, //
//!     0, 0, 0, 1, 0x41, 0x9a, 7,
//! ];
//! let found: Vec<&[u8]> = access_units(Codec::H264, &stream).collect();
//! assert_eq!(found, [&stream[..18], &stream[18..]]);
//!
//! // The same out of a file, or whatever is read.
//! let mut reader = AccessUnitReader::new(Codec::H264, &stream[..]);
//! assert_eq!(reader.next_access_unit()?, Some(&stream[1..18]));
//! assert_eq!(reader.next_access_unit()?, Some(&stream[19..]));
//! assert_eq!(reader.next_access_unit()?, None);
//! # Ok::<(), std::io::Error>(())
//! ```

#[cfg(feature = "std")]
mod lengths;
#[cfg(feature = "std")]
mod reader;

#[cfg(feature = "std")]
pub use lengths::FromLengths;
#[cfg(feature = "std")]
pub use reader::AccessUnitReader;

use crate::Codec;
use core::iter::FusedIterator;

/// The type in a unit's header (RFC 6184, 1.3; RFC 7798, 1.1.4; RFC 9328, 1.1.4); nothing where the
/// unit ends before it.
pub fn unit_type(codec: Codec, unit: &[u8]) -> Option<u8> {
    match (codec, unit) {
        (Codec::H264, [first, ..]) => Some(first & 0x1f),
        (Codec::H265, [first, _, ..]) => Some(first >> 1 & 0x3f),
        (Codec::H266, [_, second, ..]) => Some(second >> 3),
        _ => None,
    }
}

/// Whether a unit of this type holds a coded slice, or a part of one: of H.264 types 1 to 5, of H.265
/// those under 32, of H.266 those under 12.
pub fn is_slice_type(codec: Codec, unit_type: u8) -> bool {
    match codec {
        Codec::H264 => matches!(unit_type, 1..=5),
        Codec::H265 => unit_type < 32,
        Codec::H266 => unit_type < 12,
    }
}

/// Whether a unit of this type is a parameter set that a packetizer lets wait: of H.264 SPS and PPS,
/// of the others VPS, SPS and PPS.
pub fn is_parameter_set_type(codec: Codec, unit_type: u8) -> bool {
    match codec {
        Codec::H264 => matches!(unit_type, 7 | 8),
        Codec::H265 => matches!(unit_type, 32..=34),
        Codec::H266 => matches!(unit_type, 14..=16),
    }
}

/// `nuh_layer_id` (RFC 7798, 1.1.4; RFC 9328, 1.1.4); 0 of H.264.
fn layer(codec: Codec, unit: &[u8]) -> u8 {
    match (codec, unit) {
        (Codec::H265, [first, second, ..]) => (first & 1) << 5 | second >> 3,
        (Codec::H266, [first, ..]) => first & 0x3f,
        _ => 0,
    }
}

/// Tells where access units begin, unit by unit.
///
/// ```
/// use emupedestal::Codec;
/// use emupedestal::access_units::AccessUnitFinder;
///
/// let mut finder = AccessUnitFinder::new(Codec::H264);
/// let units: [&[u8]; 4] = [&[0x67, 0x42], &[0x65, 0x88], &[0x65, 0x42], &[0x41, 0x9a]];
/// let begins = units.map(|unit| finder.begins(unit));
/// assert_eq!(begins, [true, false, false, true]);
/// ```
#[derive(Debug, Clone)]
pub struct AccessUnitFinder {
    codec: Codec,
    /// Whether no unit came yet.
    is_first: bool,
    /// The layer of the slice that came last of this access unit.
    slice: Option<u8>,
}

impl AccessUnitFinder {
    /// A finder to which no unit came yet.
    pub fn new(codec: Codec) -> Self {
        AccessUnitFinder {
            codec,
            is_first: true,
            slice: None,
        }
    }

    /// Whether this unit, which comes next, is the first of an access unit. Its first three bytes are
    /// enough.
    pub fn begins(&mut self, unit: &[u8]) -> bool {
        let slice = self.slice;
        let begins = slice.is_some_and(|slice| may_begin(self.codec, unit, slice));
        if begins {
            self.slice = None;
        }
        if unit_type(self.codec, unit).is_some_and(|it| is_slice_type(self.codec, it)) {
            self.slice = Some(layer(self.codec, unit));
        }
        core::mem::take(&mut self.is_first) || begins
    }
}

/// Whether a unit that follows a slice of a layer is the first of a new access unit.
fn may_begin(codec: Codec, unit: &[u8], slice: u8) -> bool {
    let Some(unit_type) = unit_type(codec, unit) else {
        return false;
    };
    let has_bit = |place: usize| unit.get(place).is_some_and(|byte| byte & 0x80 != 0);
    match (codec, unit_type) {
        // first_mb_in_slice is 0, which is coded as a single bit 1.
        (Codec::H264, 1 | 2 | 5) => has_bit(1),
        (Codec::H264, other) => matches!(other, 6..=9 | 14..=18),
        (Codec::H265, _) if layer(codec, unit) > 0 => false,
        // first_slice_segment_in_pic_flag
        (Codec::H265, 0..=31) => has_bit(2),
        (Codec::H265, other) => matches!(other, 32..=35 | 39 | 41..=44 | 48..=55),
        (Codec::H266, 20) => true,
        (Codec::H266, _) if layer(codec, unit) > slice => false,
        // sh_picture_header_in_slice_header_flag; otherwise the picture's header is a unit, type 19.
        (Codec::H266, 0..=11) => has_bit(2),
        (Codec::H266, other) => matches!(other, 12..=17 | 19 | 23 | 26 | 28 | 29),
    }
}

/// The access units of a payload in Annex B form, in order, as slices of it with their start codes. A
/// payload without a start code is one access unit, and an empty one has none.
pub fn access_units(codec: Codec, payload: &[u8]) -> AccessUnits<'_> {
    AccessUnits {
        payload,
        begin: 0,
        scanner: Scanner::new(codec),
    }
}

/// The access units of a payload that are left, in order: what [`access_units`] answers.
#[derive(Debug, Clone)]
pub struct AccessUnits<'a> {
    payload: &'a [u8],
    begin: usize,
    scanner: Scanner,
}

impl<'a> Iterator for AccessUnits<'a> {
    type Item = &'a [u8];

    fn next(&mut self) -> Option<&'a [u8]> {
        let payload = self.payload;
        let mut end = self.scanner.next_begin(payload, true);
        if end.is_some_and(|end| is_zero(&payload[self.begin..end])) {
            // That is where the first access unit begins.
            end = self.scanner.next_begin(payload, true);
        }
        let end = end.map_or(payload.len(), |at| {
            self.begin + without_zeros(&payload[self.begin..at])
        });
        let found = &payload[core::mem::replace(&mut self.begin, end)..end];
        (!found.is_empty()).then_some(found)
    }
}

impl FusedIterator for AccessUnits<'_> {}

/// Looks for start codes at which access units begin.
#[derive(Debug, Clone)]
struct Scanner {
    finder: AccessUnitFinder,
    /// Up to where start codes were looked for.
    at: usize,
}

/// How many bytes behind a start code tell whether an access unit begins there.
const TELLING: usize = 3;

impl Scanner {
    fn new(codec: Codec) -> Self {
        Scanner {
            finder: AccessUnitFinder::new(codec),
            at: 0,
        }
    }

    /// Where the next start code of three bytes stands at which an access unit begins; nothing where
    /// none does up to the end, which is the stream's end where `is_whole`.
    fn next_begin(&mut self, bytes: &[u8], is_whole: bool) -> Option<usize> {
        while let Some(code) = start_code(bytes, self.at) {
            let unit = &bytes[code + 3..];
            if unit.len() < TELLING && !is_whole {
                self.at = code;
                return None;
            }
            self.at = code + 3;
            if self.finder.begins(&unit[..unit.len().min(TELLING)]) {
                return Some(code);
            }
        }
        self.at = self.at.max(bytes.len().saturating_sub(2));
        None
    }
}

/// Where the next `00 00 01` stands, from a place on.
fn start_code(bytes: &[u8], from: usize) -> Option<usize> {
    let mut last = from + 2;
    while let Some(&byte) = bytes.get(last) {
        match byte {
            // The code may end in one of the next two bytes.
            0 => last += 1,
            1 if bytes[last - 1] == 0 && bytes[last - 2] == 0 => return Some(last - 2),
            _ => last += 3,
        }
    }
    None
}

/// How long bytes are without the zeros at their end, which before a start code are of no unit
/// (`trailing_zero_8bits` and `zero_byte`; Annex B).
fn without_zeros(bytes: &[u8]) -> usize {
    bytes
        .iter()
        .rposition(|byte| *byte != 0)
        .map_or(0, |last| last + 1)
}

fn is_zero(bytes: &[u8]) -> bool {
    without_zeros(bytes) == 0
}
