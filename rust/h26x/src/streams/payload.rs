//! What an RTP payload says that it holds (RFC 6184, 5.6 to 5.8; RFC 7798, 4.4; RFC 9328, 4.3).

use crate::streams::names::{is_keyframe_type, packet_name, unit_name};
use emupedestal::Codec;
use emupedestal::access_units::unit_type;

/// A fragment's marks, and the type of its unit.
#[derive(Clone, Copy)]
pub struct Fragment {
    pub is_first: bool,
    pub is_last: bool,
    pub unit_type: u8,
    /// How many bytes stand behind its headers.
    pub len: usize,
}

/// The fragment that a packet is.
pub fn fragment(codec: Codec, packet: &[u8]) -> Option<Fragment> {
    let (header, types, data) = match (codec, packet) {
        (Codec::H264, [first, header, data @ ..]) if first & 0x1f == 28 => (header, 0x1f, data),
        (Codec::H265, [first, _, header, data @ ..]) if first >> 1 & 0x3f == 49 => {
            (header, 0x3f, data)
        }
        (Codec::H266, [_, second, header, data @ ..]) if second >> 3 == 29 => (header, 0x1f, data),
        _ => return None,
    };
    Some(Fragment {
        is_first: header & 0x80 != 0,
        is_last: header & 0x40 != 0,
        unit_type: header & types,
        len: data.len(),
    })
}

/// Whether a packet aggregates units, with room for numbers (RFC 7798, 4.4.2; RFC 9328, 4.3.2).
pub fn is_numbered_aggregate(codec: Codec, packet: &[u8]) -> bool {
    codec != Codec::H264 && is_aggregate(codec, packet)
}

/// Whether a packet aggregates units.
pub fn is_aggregate(codec: Codec, packet: &[u8]) -> bool {
    matches!(
        (codec, unit_type(codec, packet)),
        (Codec::H264, Some(24)) | (Codec::H265, Some(48)) | (Codec::H266, Some(28))
    )
}

/// A packet in words.
pub struct Description {
    pub kind: &'static str,
    /// A fragment's marks: `S` for the first, `E` for the last, `-` for one between.
    pub marks: &'static str,
    /// Its units by their types, with their lengths in bytes; a fragment's unit has none.
    pub units: Vec<(&'static str, Option<usize>)>,
    /// Whether it holds a unit of a keyframe, or begins one.
    pub is_keyframe: bool,
}

/// Describes a packet; `has_donl` tells that packets bear decoding order numbers.
pub fn describe(codec: Codec, has_donl: bool, packet: &[u8]) -> Description {
    let packet_type = unit_type(codec, packet).unwrap_or(0);
    let kind = packet_name(codec, packet_type);
    if let Some(it) = fragment(codec, packet) {
        let marks = match (it.is_first, it.is_last) {
            (true, true) => "SE",
            (true, false) => "S",
            (false, true) => "E",
            (false, false) => "-",
        };
        return Description {
            kind,
            marks,
            units: vec![(unit_name(codec, it.unit_type), None)],
            is_keyframe: it.is_first && is_keyframe_type(codec, it.unit_type),
        };
    }
    let mut units = Vec::new();
    let mut is_keyframe = false;
    each_unit(codec, has_donl, packet, |unit_type, len| {
        units.push((unit_name(codec, unit_type), Some(len)));
        is_keyframe |= is_keyframe_type(codec, unit_type);
    });
    Description {
        kind,
        marks: "",
        units,
        is_keyframe,
    }
}

/// Gives the type of each unit that a packet holds or begins.
pub fn each_type(codec: Codec, has_donl: bool, packet: &[u8], mut found: impl FnMut(u8)) {
    match fragment(codec, packet) {
        Some(it) if it.is_first => found(it.unit_type),
        Some(_) => {}
        None => each_unit(codec, has_donl, packet, |unit_type, _| found(unit_type)),
    }
}

/// The type and the length of each whole unit in a packet that is no fragment.
fn each_unit(codec: Codec, has_donl: bool, packet: &[u8], mut found: impl FnMut(u8, usize)) {
    let packet_type = unit_type(codec, packet);
    match (codec, packet_type) {
        (_, None) | (Codec::H264, Some(0 | 25..)) => {}
        (Codec::H264, Some(24)) => each_sized(codec, &packet[1..], 0, found),
        (Codec::H265, Some(48)) => {
            let numbers = usize::from(has_donl);
            each_sized(
                codec,
                packet.get(2 + 2 * numbers..).unwrap_or(&[]),
                numbers,
                found,
            );
        }
        (Codec::H266, Some(28)) => {
            let numbers = 2 * usize::from(has_donl);
            each_sized(codec, packet.get(2 + numbers..).unwrap_or(&[]), 0, found);
        }
        (Codec::H265, Some(50)) => {
            let [_, _, high, low, rest @ ..] = packet else {
                return;
            };
            let extension = usize::from((high & 1) << 4 | low >> 4);
            found(high >> 1 & 0x3f, 2 + rest.len().saturating_sub(extension));
        }
        (_, Some(single)) => {
            let numbers = if codec != Codec::H264 && has_donl {
                2
            } else {
                0
            };
            found(single, packet.len().saturating_sub(numbers));
        }
    }
}

/// Units behind their sizes of two bytes, and so many bytes between one and the next size.
fn each_sized(codec: Codec, mut rest: &[u8], between: usize, mut found: impl FnMut(u8, usize)) {
    while let Some((size, behind)) = rest.split_first_chunk() {
        let size = usize::from(u16::from_be_bytes(*size));
        let Some((unit, behind)) = behind.split_at_checked(size) else {
            return;
        };
        if let Some(unit_type) = unit_type(codec, unit) {
            found(unit_type, size);
        }
        rest = behind.get(between..).unwrap_or(&[]);
    }
}
