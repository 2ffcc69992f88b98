//! The numbers by which calls answer, and copies into a caller's memory.

use crate::proved::h26x_codec::{AnyPacketizer, Codec, PacketBuffer};
use crate::proved::h26x_codes::code::{
    NOT_OF_THIS_CODEC, Refusal, UNKNOWN_CODEC, code_of, codec_of, codec_wanted, extra_of,
    number_of, numbers_of,
};
use crate::proved::h26x_codes::copy::{copy_packets, copy_where_room};
use crate::proved::h26x_core::{
    CodecExtra, H264CodecExtra, H265CodecExtra, H266CodecExtra, PacketError,
};
use crate::proved::h26x_receiver::Received;
use core::mem::MaybeUninit;

/// The code and the numbers of each refusal.
#[test]
fn codes_of_refusals() {
    for (error, want) in [
        (PacketError::ErrShortPacket, (1, 0, 0)),
        (PacketError::NaluTypeIsNotHandled(31), (2, 31, 0)),
        (PacketError::StapASizeLargerThanBuffer(2, 1), (3, 2, 1)),
        (PacketError::ErrH265CorruptedPacket, (4, 0, 0)),
        (PacketError::ErrH265PACIPHESTooLong, (5, 0, 0)),
        (PacketError::ErrH266CorruptedPacket, (6, 0, 0)),
        (PacketError::AvcUnitTooLong, (7, 0, 0)),
        (PacketError::OutOfMemory, (8, 0, 0)),
    ] {
        let mut why = MaybeUninit::new(Refusal {
            first: 77,
            second: 77,
        });
        let code = code_of(error, &mut why);
        // SAFETY: it was made with numbers.
        let why = unsafe { why.assume_init() };
        assert_eq!((code, why.first, why.second), want, "{error:?}");
    }
}

#[test]
fn codecs_by_their_numbers() {
    for (number, want) in [
        (0, None),
        (1, None),
        (263, None),
        (264, Some(Codec::H264)),
        (265, Some(Codec::H265)),
        (266, Some(Codec::H266)),
        (267, None),
        (u32::MAX, None),
    ] {
        assert_eq!(codec_of(number), want, "{number}");
    }
}

/// A codec's number, whether numbers are wanted, and the codec or the refusal.
#[test]
fn codecs_wanted() {
    for (number, numbers, want) in [
        (264, false, Ok(Codec::H264)),
        (264, true, Err(NOT_OF_THIS_CODEC)),
        (265, true, Ok(Codec::H265)),
        (266, true, Ok(Codec::H266)),
        (267, true, Err(UNKNOWN_CODEC)),
        (0, false, Err(UNKNOWN_CODEC)),
    ] {
        assert_eq!(codec_wanted(number, numbers), want, "{number}");
    }
}

#[test]
fn extras_there_and_back() {
    let (key, no_key) = (true, false);
    for (codec, extra, number) in [
        (Codec::H264, CodecExtra::None, 0),
        (
            Codec::H264,
            CodecExtra::H264(H264CodecExtra {
                is_keyframe: no_key,
            }),
            1,
        ),
        (
            Codec::H265,
            CodecExtra::H265(H265CodecExtra { is_keyframe: key }),
            2,
        ),
        (
            Codec::H266,
            CodecExtra::H266(H266CodecExtra {
                is_keyframe: no_key,
            }),
            1,
        ),
    ] {
        assert_eq!((extra_of(codec, number), number_of(extra)), (extra, number));
    }
}

#[test]
fn what_became_of_packets_by_numbers() {
    for (received, want) in [
        (Received::InOrder, (0, 0)),
        (Received::Gap(7), (1, 7)),
        (Received::TooLong(0), (2, 0)),
        (Received::TooLong(65535), (2, 65535)),
        (Received::Late(32768), (3, 32768)),
    ] {
        assert_eq!(numbers_of(received), want, "{received:?}");
    }
}

/// Bytes, how many there are, and what stands in three behind a copy.
type Copied<'a> = (&'a [u8], (usize, [u8; 3]));

/// One byte too many copies nothing.
#[test]
fn bytes_that_fit() {
    let rows: [Copied<'_>; 4] = [
        (&[1, 2, 3], (3, [1, 2, 3])),
        (&[1], (1, [1, 9, 9])),
        (&[], (0, [9, 9, 9])),
        (&[1, 2, 3, 4], (4, [9, 9, 9])),
    ];
    for (bytes, want) in rows {
        let mut to = [9; 3];
        assert_eq!((copy_where_room(bytes, &mut to), to), want, "{bytes:?}");
    }
}

/// Packets, the first that is copied, how many bytes and how many ends there is room for; how many packets are copied,
/// and what stands in the bytes then, and in the ends.
#[test]
fn as_many_packets_as_there_is_room_for() {
    let of = |packets: &[&[u8]]| packets.iter().map(|it| it.to_vec()).collect::<Vec<_>>();
    let (two_one, two_two) = (of(&[&[1, 2], &[3]]), of(&[&[1, 2], &[3, 4]]));
    let (three, one) = (of(&[&[1, 2], &[3], &[4, 5]]), of(&[&[1, 2]]));
    let mut sender = AnyPacketizer::new(Codec::H264, false);
    for (packets, first, room, ends_room, want) in [
        (&two_one, 0, 4, 3, (2, [1, 2, 3, 9], [2, 3, 9])),
        (&two_two, 0, 3, 2, (1, [1, 2, 9, 9], [2, 9, 9])),
        (&two_two, 0, 4, 1, (1, [1, 2, 9, 9], [2, 9, 9])),
        (&two_two, 0, 4, 0, (0, [9, 9, 9, 9], [9, 9, 9])),
        (&three, 1, 3, 3, (2, [3, 4, 5, 9], [1, 3, 9])),
        (&one, 1, 4, 3, (0, [9, 9, 9, 9], [9, 9, 9])),
        (&one, 2, 4, 3, (0, [9, 9, 9, 9], [9, 9, 9])),
    ] {
        let mut buffer = PacketBuffer::new(0);
        for packet in packets {
            let appended = sender.packetize_unit_into(1200, packet, &mut buffer);
            appended.expect("memory");
        }
        let (mut to, mut ends) = ([9; 4], [9; 3]);
        let count = copy_packets(&buffer, first, &mut to[..room], &mut ends[..ends_room]);
        assert_eq!(
            (count, to, ends),
            want,
            "{packets:?} {first} {room} {ends_room}"
        );
    }
}
