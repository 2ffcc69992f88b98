// Made from crates/h26x_codes/src/code.rt by tools/to-rust.

//! What calls answer, as numbers.

use crate::proved::h26x_codec::Codec;
use crate::proved::h26x_core::{
    CodecExtra, H264CodecExtra, H265CodecExtra, H266CodecExtra, PacketError,
};
use crate::proved::h26x_packetizer::{EveryUnitError, PacketsSize, Packing, Placement, WhyRefused};
use crate::proved::h26x_receiver::Received;
use core::mem::MaybeUninit;

/// The call was carried out.
pub const OK: u32 = 0;

/// A packet, or a unit that is to be packed, is too short.
pub const SHORT_PACKET: u32 = 1;

/// The extension of a PACI packet has over 31 bytes.
pub const EXTENSION_TOO_LONG: u32 = 5;

/// No memory; nothing changed.
pub const OUT_OF_MEMORY: u32 = 8;

/// No codec has this number.
pub const UNKNOWN_CODEC: u32 = 9;

/// The handle is of another kind than the call wants: a packetizer, a depacketizer or a receiver.
pub const WRONG_END: u32 = 10;

/// The codec has no such setting.
pub const NOT_OF_THIS_CODEC: u32 = 11;

/// A number is too small or too large.
pub const OUT_OF_RANGE: u32 = 12;

/// What is to be written doesn't fit; nothing changed.
pub const NO_ROOM: u32 = 13;

/// No access unit has ended.
pub const NOTHING_YET: u32 = 14;

/// A unit has no whole header.
pub const UNIT_WITHOUT_HEADER: u32 = 15;

/// The forbidden bit of a unit is set.
pub const UNIT_FORBIDDEN: u32 = 16;

/// A unit has a type of packets.
pub const UNIT_OF_PACKET_TYPE: u32 = 17;

/// A unit is longer than a packet, and no fragment has room for its data, or none may go.
pub const UNIT_TOO_LONG: u32 = 18;

/// The two numbers of a refusal.
#[repr(C)]
#[derive(Clone, Copy)]
pub struct Refusal {
    pub first: usize,
    pub second: usize,
}

/// The code of a refusal of a packet, and its numbers.
pub fn code_and_numbers(error: PacketError) -> (u32, Refusal) {
    let (code, first, second) = match error {
        PacketError::ErrShortPacket => (SHORT_PACKET, 0, 0),
        PacketError::NaluTypeIsNotHandled(kind) => (2, usize::from(kind), 0),
        PacketError::StapASizeLargerThanBuffer(len, left) => (3, len, left),
        PacketError::ErrH265CorruptedPacket => (4, 0, 0),
        PacketError::ErrH265PACIPHESTooLong => (EXTENSION_TOO_LONG, 0, 0),
        PacketError::ErrH266CorruptedPacket => (6, 0, 0),
        PacketError::AvcUnitTooLong => (7, 0, 0),
        PacketError::OutOfMemory => (OUT_OF_MEMORY, 0, 0),
    };
    (code, Refusal { first, second })
}

/// The same, with the numbers at a place.
pub fn code_of(error: PacketError, why: &mut MaybeUninit<Refusal>) -> u32 {
    let (code, numbers) = code_and_numbers(error);
    why.write(numbers);
    code
}

/// Why a unit can't go, as a code.
fn code_of_unit(why: WhyRefused) -> u32 {
    match why {
        WhyRefused::WithoutHeader => UNIT_WITHOUT_HEADER,
        WhyRefused::Forbidden => UNIT_FORBIDDEN,
        WhyRefused::OfPacketType => UNIT_OF_PACKET_TYPE,
        WhyRefused::TooLong => UNIT_TOO_LONG,
    }
}

/// The code of a refusal of units, and its numbers: the place of the first that can't go, and its
/// length in bytes.
pub fn code_of_units(error: EveryUnitError, why: &mut MaybeUninit<Refusal>) -> u32 {
    let (code, first, second) = match error {
        EveryUnitError::Unit(unit) => (code_of_unit(unit.why), unit.place, unit.len),
        EveryUnitError::OutOfMemory => (OUT_OF_MEMORY, 0, 0),
    };
    why.write(Refusal { first, second });
    code
}

/// Which units share packets, by its number.
pub fn packing_of(number: u32) -> Option<Packing> {
    match number {
        0 => Some(Packing::Together),
        1 => Some(Packing::BeforeSlices),
        2 => Some(Packing::Apart),
        3 => Some(Packing::Single),
        _ => None,
    }
}

/// The codec with a number, which is that of its standard.
pub fn codec_of(number: u32) -> Option<Codec> {
    match number {
        264 => Some(Codec::H264),
        265 => Some(Codec::H265),
        266 => Some(Codec::H266),
        _ => None,
    }
}

/// Whether packets of a codec may bear decoding order numbers.
pub fn may_have_donl(codec: Codec) -> bool {
    match codec {
        Codec::H264 => false,
        Codec::H265 | Codec::H266 => true,
    }
}

/// The codec of an endpoint that is to be made, or why there is none.
pub fn codec_wanted(number: u32, has_donl: bool) -> Result<Codec, u32> {
    let codec = codec_of(number).ok_or(UNKNOWN_CODEC)?;
    if has_donl && !may_have_donl(codec) {
        return Err(NOT_OF_THIS_CODEC);
    }
    Ok(codec)
}

/// What a number tells of units of a codec.
pub fn extra_of(codec: Codec, number: u8) -> CodecExtra {
    if number == 0 {
        return CodecExtra::None;
    }
    let is_keyframe = number == 2;
    match codec {
        Codec::H264 => CodecExtra::H264(H264CodecExtra { is_keyframe }),
        Codec::H265 => CodecExtra::H265(H265CodecExtra { is_keyframe }),
        Codec::H266 => CodecExtra::H266(H266CodecExtra { is_keyframe }),
    }
}

/// The number that tells it.
pub fn number_of(extra: CodecExtra) -> u8 {
    match extra {
        CodecExtra::None => 0,
        CodecExtra::H264(H264CodecExtra { is_keyframe })
        | CodecExtra::H265(H265CodecExtra { is_keyframe })
        | CodecExtra::H266(H266CodecExtra { is_keyframe }) => 1 + u8::from(is_keyframe),
    }
}

/// What came of packets that were to go into memory, as a code, with how many they are and how many
/// bytes they take; both 0 where memory lacked to make them.
pub fn code_of_placement(
    made: Result<Placement, PacketError>,
    count: &mut MaybeUninit<usize>,
    size: &mut MaybeUninit<usize>,
) -> u32 {
    let (code, taken) = match made {
        Ok(Placement::Placed(taken)) => (OK, taken),
        Ok(Placement::NoRoom(taken)) => (NO_ROOM, taken),
        Err(_) => (
            OUT_OF_MEMORY,
            PacketsSize {
                packets: 0,
                bytes: 0,
            },
        ),
    };
    count.write(taken.packets);
    size.write(taken.bytes);
    code
}

/// The numbers of what became of a packet with its sequence number: which of the four it is, and how
/// many packets are missing before it, or how far it is behind.
pub fn numbers_of(received: Received) -> (u32, u16) {
    match received {
        Received::InOrder => (0, 0),
        Received::Gap(missing) => (1, missing),
        Received::TooLong(missing) => (2, missing),
        Received::Late(behind) => (3, behind),
    }
}
