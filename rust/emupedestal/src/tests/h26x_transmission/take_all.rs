//! Many packets, lost, cut and refused.

use crate::tests::{Answer, bytes, list, told};
use crate::{
    Codec, CodecDepacketizer, CodecExtra, Depacketizer, H264Packetizer, PacketError, Packets,
    take_all,
};

const SHORT: Answer = Err(PacketError::ErrShortPacket);
const CORRUPTED: Answer = Err(PacketError::ErrH265CorruptedPacket);

/// Takes packets that spaces part, `-` being one without a byte, and compares all that comes of them.
#[track_caller]
fn takes(codec: Codec, packets: &str, outcomes: &[Answer], written: &str, is_keyframe: bool) {
    let (mut out, mut extra) = (Vec::new(), CodecExtra::None);
    let mut end = CodecDepacketizer::new(codec);
    let taken = take_all(&mut end, list(packets), &mut out, &mut extra);
    assert_eq!(taken, outcomes, "{packets}");
    assert_eq!(out, bytes(written), "{packets}");
    assert_eq!(extra, told(codec, is_keyframe), "{packets}");
}

#[test]
fn packets_lost_cut_and_refused() {
    takes(
        Codec::H264,
        "7c0501 7c8502 - 7c4503 7c",
        &[Ok(()), Ok(()), SHORT, Ok(()), SHORT],
        "00000001 650203",
        true,
    );
    // Of two units in fragments the last of one and the first of the other are lost, or one alone.
    takes(
        Codec::H264,
        "7c85010203 7c81111213 7c41141516",
        &[Ok(()); 3],
        "00000001 61111213141516",
        false,
    );
    takes(
        Codec::H264,
        "7c85010203 7c41141516",
        &[Ok(()); 2],
        "00000001 61010203141516",
        false,
    );
    takes(
        Codec::H265,
        "620193aa 620193 e20193aa 620153bb",
        &[Ok(()), SHORT, CORRUPTED, Ok(())],
        "00000001 2601aabb",
        true,
    );
    takes(
        Codec::H266,
        "00e987aa 00e9 00e947bb 00e947cc",
        &[Ok(()), SHORT, Ok(()), Ok(())],
        "00000001 0039aabb",
        true,
    );
}

#[test]
fn packets_of_any_list_by_any_depacketizer() {
    let mut packets = Packets::with_headroom(12);
    H264Packetizer::default()
        .packetize_into(4, &bytes("6501020304"), &mut packets)
        .unwrap();
    let mut end: Box<dyn Depacketizer> = Box::new(CodecDepacketizer::new(Codec::H264));
    let (mut out, mut extra) = (vec![7], CodecExtra::None);
    let taken = take_all(&mut *end, &packets, &mut out, &mut extra);
    assert_eq!(
        (taken, out),
        (vec![Ok(()); 2], bytes("07 00000001 6501020304"))
    );

    let mut out = vec![7];
    let mut extra = told(Codec::H266, true);
    let none: [&[u8]; 0] = [];
    assert_eq!(take_all(&mut *end, none, &mut out, &mut extra), []);
    assert_eq!((out, extra), (vec![7], told(Codec::H266, true)));
}
