//! What can be told of packets and payloads without a packetizer or a depacketizer.

use crate::proved::h26x_cut::{self, UnitSlices, next_avc_unit};
use crate::proved::h265_payload;
use crate::{Codec, detect_h264_keyframe, detect_h265_keyframe, detect_h266_keyframe};
use core::iter::FusedIterator;
use core::ops::Range;

/// Whether a packet without decoding order numbers is known to hold a unit of a keyframe, or to be the
/// first fragment of one.
pub fn detect_keyframe(codec: Codec, packet: &[u8]) -> bool {
    match codec {
        Codec::H264 => detect_h264_keyframe(packet),
        Codec::H265 => detect_h265_keyframe(packet),
        Codec::H266 => detect_h266_keyframe(packet),
    }
}

/// Gives an aggregation packet of H.265 the header that RFC 7798, 4.4.2 asks for: the lowest layer and the
/// lowest temporal id of the units in it, and F where one has it. `has_donl`: whether packets bear decoding
/// order numbers. Every other packet stays, and those of H.264 and H.266.
///
/// ```
/// use emupedestal::{Codec, set_lowest_header};
///
/// // An SPS and a PPS of temporal id 1, under the header of a slice of 3.
/// let mut packet = [0x60, 0x03, 0, 2, 0x42, 0x01, 0, 2, 0x44, 0x01];
/// set_lowest_header(Codec::H265, false, &mut packet);
/// assert_eq!(packet[..2], [0x60, 0x01]);
/// ```
pub fn set_lowest_header(codec: Codec, has_donl: bool, packet: &mut [u8]) {
    if codec == Codec::H265 {
        h265_payload::set_lowest_header(has_donl, packet);
    }
}

/// The units of a payload between start codes (Annex B of the video standards), in order, as slices
/// of it, without empty ones. A payload without a start code is one unit.
///
/// Of H.264 and H.265 a unit ends before the zeros of the next start code; of H.266 it keeps those
/// before the nearest three.
///
/// ```
/// use emupedestal::{Codec, units};
///
/// let payload = [0, 0, 1, 0x67, 0x42, 0, 0, 0, 1, 0x65];
/// let found: Vec<&[u8]> = units(Codec::H264, &payload).collect();
/// assert_eq!(found, [&[0x67, 0x42][..], &[0x65]]);
/// ```
pub fn units(codec: Codec, payload: &[u8]) -> Units<'_> {
    let slices = h26x_cut::units(payload, codec.zero_rule());
    Units { slices }
}

/// The units of a payload that are left, in order: what [`units`] answers.
#[derive(Debug, Clone)]
pub struct Units<'a> {
    slices: UnitSlices<'a>,
}

impl<'a> Iterator for Units<'a> {
    type Item = &'a [u8];

    #[inline]
    fn next(&mut self) -> Option<&'a [u8]> {
        self.slices.next()
    }
}

impl FusedIterator for Units<'_> {}

/// Where the next unit of a payload stands: the first of [`units`] that begins at a place or behind it. From 0
/// on it is the first unit, and from the end of one the next. `None` where no unit is left.
///
/// ```
/// use emupedestal::{Codec, next_unit};
///
/// let payload = [0, 0, 1, 0x67, 0x42, 0, 0, 0, 1, 0x65];
/// assert_eq!(next_unit(Codec::H264, &payload, 0), Some(3..5));
/// assert_eq!(next_unit(Codec::H264, &payload, 5), Some(9..10));
/// assert_eq!(next_unit(Codec::H264, &payload, 10), None);
/// ```
pub fn next_unit(codec: Codec, payload: &[u8], from: usize) -> Option<Range<usize>> {
    h26x_cut::next_unit(payload, codec.zero_rule(), from)
}

/// The units of a text, each behind its length of four bytes (ISO/IEC 14496-15), in order, as slices of it,
/// without empty ones. It ends where fewer bytes are left than a length tells.
///
/// ```
/// use emupedestal::avc_units;
///
/// let text = [0, 0, 0, 2, 0x67, 0x42, 0, 0, 0, 1, 0x65];
/// let found: Vec<&[u8]> = avc_units(&text).collect();
/// assert_eq!(found, [&[0x67, 0x42][..], &[0x65]]);
/// ```
pub fn avc_units(text: &[u8]) -> AvcUnits<'_> {
    AvcUnits { text, from: 0 }
}

/// The units of a text behind lengths that are left, in order: what [`avc_units`] answers.
#[derive(Debug, Clone)]
pub struct AvcUnits<'a> {
    text: &'a [u8],
    from: usize,
}

impl<'a> Iterator for AvcUnits<'a> {
    type Item = &'a [u8];

    #[inline]
    fn next(&mut self) -> Option<&'a [u8]> {
        let place = next_avc_unit(self.text, self.from)?;
        self.from = place.end;
        Some(&self.text[place])
    }
}

impl FusedIterator for AvcUnits<'_> {}
