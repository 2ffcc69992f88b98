//! Units as they are written, and what is told of them, by the words of the RFCs and not by the crate's code.

use emupedestal::{Codec, CodecExtra, H264CodecExtra, H265CodecExtra, H266CodecExtra};

/// The units of a text, each behind its length in four bytes up to the end of the text.
pub fn units_behind_lengths(text: &[u8]) -> Vec<&[u8]> {
    let mut units = Vec::new();
    let mut rest = text;
    while !rest.is_empty() {
        let (len, behind) = rest.split_first_chunk::<4>().expect("a whole length");
        let (unit, behind) = behind
            .split_at_checked(u32::from_be_bytes(*len) as usize)
            .expect("a whole unit");
        units.push(unit);
        rest = behind;
    }
    units
}

/// Units as they are written: behind start codes of four bytes, or behind lengths.
pub fn text_of<U: AsRef<[u8]>>(avc: bool, units: impl IntoIterator<Item = U>) -> Vec<u8> {
    let mut text = Vec::new();
    for unit in units {
        let unit = unit.as_ref();
        let front = if avc { unit.len() as u32 } else { 1 };
        text.extend_from_slice(&front.to_be_bytes());
        text.extend_from_slice(unit);
    }
    text
}

/// How many bytes the header of a unit has (RFC 6184, 1.3; RFC 7798, 1.1.4; RFC 9328, 1.1.4).
pub fn header_len(codec: Codec) -> usize {
    if codec == Codec::H264 { 1 } else { 2 }
}

/// The type in the header of a unit or a packet, if that is whole.
pub fn type_of(codec: Codec, unit: &[u8]) -> Option<u8> {
    match (codec, unit) {
        (Codec::H264, [first, ..]) => Some(first & 0x1f),
        (Codec::H265, [first, _, ..]) => Some(first >> 1 & 0x3f),
        (Codec::H266, [_, second, ..]) => Some(second >> 3),
        _ => None,
    }
}

/// Whether a unit of this type is of a keyframe: an IDR picture of H.264, an IRAP picture of H.265, an IDR or CRA
/// picture of H.266.
pub fn is_key_type(codec: Codec, unit_type: u8) -> bool {
    match codec {
        Codec::H264 => unit_type == 5,
        Codec::H265 => matches!(unit_type, 16..=21),
        Codec::H266 => matches!(unit_type, 7..=9),
    }
}

/// What is told once these units are written; those without a whole header don't count.
pub fn told_after(codec: Codec, told: CodecExtra, units: &[&[u8]]) -> CodecExtra {
    let types: Vec<u8> = units
        .iter()
        .filter_map(|unit| type_of(codec, unit))
        .collect();
    if types.is_empty() {
        return told;
    }
    let told_before = match (codec, told) {
        (Codec::H264, CodecExtra::H264(it)) => it.is_keyframe,
        (Codec::H265, CodecExtra::H265(it)) => it.is_keyframe,
        (Codec::H266, CodecExtra::H266(it)) => it.is_keyframe,
        _ => false,
    };
    let is_keyframe = told_before || types.iter().any(|it| is_key_type(codec, *it));
    match codec {
        Codec::H264 => CodecExtra::H264(H264CodecExtra { is_keyframe }),
        Codec::H265 => CodecExtra::H265(H265CodecExtra { is_keyframe }),
        Codec::H266 => CodecExtra::H266(H266CodecExtra { is_keyframe }),
    }
}

/// What a packet is by the type in its header (RFC 6184, 5.2; RFC 7798, 4.4; RFC 9328, 4.3).
#[derive(Debug, Clone, Copy, PartialEq, Eq)]
pub enum Kind {
    Single,
    Aggregate,
    Fragment(Fragment),
    Paci,
}

/// The marks of a fragment (RFC 6184, 5.8; RFC 7798, 4.4.3; RFC 9328, 4.3.3).
#[derive(Debug, Clone, Copy, PartialEq, Eq)]
pub struct Fragment {
    pub starts: bool,
    pub ends: bool,
    pub unit_type: u8,
}

/// What an accepted packet is.
pub fn kind_of(codec: Codec, packet: &[u8]) -> Kind {
    let marks = |byte: u8, bits: u8| {
        let (starts, ends) = (byte & 0x80 != 0, byte & 0x40 != 0);
        Kind::Fragment(Fragment {
            starts,
            ends,
            unit_type: byte & bits,
        })
    };
    match (codec, type_of(codec, packet)) {
        (Codec::H264, Some(24)) | (Codec::H265, Some(48)) | (Codec::H266, Some(28)) => {
            Kind::Aggregate
        }
        (Codec::H264, Some(28)) => marks(packet[1], 0x1f),
        (Codec::H265, Some(49)) => marks(packet[2], 0x3f),
        (Codec::H266, Some(29)) => marks(packet[2], 0x1f),
        (Codec::H265, Some(50)) => Kind::Paci,
        _ => Kind::Single,
    }
}

/// The data of a fragment, behind its headers and its number (RFC 6184, 5.8; RFC 7798, 4.4.3; RFC 9328, 4.3.3).
pub fn fragment_data(codec: Codec, donl: bool, starts: bool, packet: &[u8]) -> &[u8] {
    let number = if donl && starts { 2 } else { 0 };
    &packet[header_len(codec) + 1 + number..]
}

/// The units of an accepted aggregation packet (RFC 6184, 5.7.1; RFC 7798, 4.4.2; RFC 9328, 4.3.2). Of H.264
/// empty ones are none.
pub fn aggregated(codec: Codec, donl: bool, packet: &[u8]) -> Vec<&[u8]> {
    let mut units = Vec::new();
    let mut rest = &packet[header_len(codec) + if donl { 2 } else { 0 }..];
    while let Some((len, behind)) = rest.split_first_chunk::<2>() {
        let Some((unit, behind)) = behind.split_at_checked(u16::from_be_bytes(*len).into()) else {
            break;
        };
        if codec != Codec::H264 || !unit.is_empty() {
            units.push(unit);
        }
        // DOND stands before each further unit of H.265.
        let dond = usize::from(donl && codec == Codec::H265);
        rest = behind.get(dond..).unwrap_or_default();
    }
    units
}

/// The unit of an accepted PACI packet: A as F, cType, the packet's layer and TID, and then what stands behind the
/// extension (RFC 7798, 4.4.4).
pub fn paci_unit(packet: &[u8]) -> Vec<u8> {
    let fields = u16::from_be_bytes([packet[2], packet[3]]);
    let [f_and_type, _] = (fields & 0xfe00).to_be_bytes();
    let size = usize::from(fields >> 4 & 0x1f);
    let mut unit = vec![f_and_type | packet[0] & 1, packet[1]];
    unit.extend_from_slice(&packet[4 + size..]);
    unit
}
