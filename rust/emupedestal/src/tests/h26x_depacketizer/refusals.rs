//! What is refused, as what, and that a refusal changes nothing; the texts of errors.

use crate::tests::{received, refuses, writes};
use crate::{
    CodecExtra, Depacketizer, H264Depacketizer, H265Depacketizer, H266Depacketizer, PacketError,
};
use std::error::Error;

#[test]
fn h264_refusals() {
    let end = &mut H264Depacketizer::default();
    refuses(end, "", PacketError::ErrShortPacket);
    refuses(end, "7c", PacketError::ErrShortPacket);
    for (packet, nalu_type) in [
        ("00", 0),
        ("1900", 25),
        ("1b00", 27),
        ("1d80", 29),
        ("ff0000", 31),
    ] {
        refuses(end, packet, PacketError::NaluTypeIsNotHandled(nalu_type));
    }
    refuses(
        end,
        "78 000f 6742c01f1a323501407a403c2211",
        PacketError::StapASizeLargerThanBuffer(15, 14),
    );
    refuses(
        end,
        "78 0002 67aa 0005 681a",
        PacketError::StapASizeLargerThanBuffer(5, 2),
    );
}

#[test]
fn h265_refusals() {
    let end = &mut H265Depacketizer::default();
    for packet in [
        "",
        "0201",
        "620193",
        "64012638112233",
        "6001 0003 0201aa 0009 02",
        "6001 0003 0201aa 0002 02",
    ] {
        refuses(end, packet, PacketError::ErrShortPacket);
    }
    refuses(end, "e20193aa", PacketError::ErrH265CorruptedPacket);
}

#[test]
fn h266_refusals() {
    let end = &mut H266Depacketizer::default();
    for packet in [
        "",
        "0009",
        "00e1 0003 0001aa",
        "00e1 0020",
        "00e1 0003 0001aa 00",
    ] {
        refuses(end, packet, PacketError::ErrShortPacket);
    }
    for packet in ["800193afaf", "00e1 0003 0009aa 0002 00e1"] {
        refuses(end, packet, PacketError::ErrH266CorruptedPacket);
    }
}

#[test]
fn a_refusal_leaves_an_open_unit() {
    let h264 = &mut H264Depacketizer::default();
    writes(h264, &["7c8502"], "");
    refuses(h264, "ff", PacketError::NaluTypeIsNotHandled(31));
    writes(h264, &["7c4503"], "00000001 650203");

    let h265 = &mut H265Depacketizer::default();
    writes(h265, &["620193aa"], "");
    refuses(h265, "620193", PacketError::ErrShortPacket);
    refuses(h265, "e20193aa", PacketError::ErrH265CorruptedPacket);
    writes(h265, &["620153bb"], "00000001 2601aabb");

    let h266 = &mut H266Depacketizer::default();
    writes(h266, &["00e987aa"], "");
    refuses(h266, "80e987aa", PacketError::ErrH266CorruptedPacket);
    writes(h266, &["00e947bb"], "00000001 0039aabb");
}

#[test]
fn a_refusal_leaves_what_was_told() {
    let end = &mut H264Depacketizer::default();
    let (mut out, mut extra) = received(end, &["65aa"]);
    let before = (out.clone(), extra);
    let refused = end.depacketize(&[0x18, 0, 9, 0x61], &mut out, &mut extra);
    assert_eq!(refused, Err(PacketError::StapASizeLargerThanBuffer(9, 1)));
    assert_eq!((out, extra), before);
    assert_ne!(extra, CodecExtra::None);
}

#[test]
fn texts() {
    for (error, text) in [
        (PacketError::ErrShortPacket, "packet is too short"),
        (
            PacketError::NaluTypeIsNotHandled(31),
            "NAL unit type 31 is not handled",
        ),
        (
            PacketError::StapASizeLargerThanBuffer(15, 14),
            "STAP-A unit of 15 bytes, 14 left",
        ),
        (
            PacketError::ErrH265CorruptedPacket,
            "corrupted H.265 packet",
        ),
        (
            PacketError::ErrH265PACIPHESTooLong,
            "PACI extension is longer than 31 bytes",
        ),
        (
            PacketError::ErrH266CorruptedPacket,
            "corrupted H.266 packet",
        ),
        (
            PacketError::AvcUnitTooLong,
            "unit is too long for an AVC length",
        ),
        (PacketError::OutOfMemory, "out of memory"),
    ] {
        let error: Box<dyn Error> = Box::new(error);
        assert_eq!(error.to_string(), text);
    }
}
