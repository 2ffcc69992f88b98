//! What the documents warn of.

use super::{bytes, payload, refuses, sends, writes};
use crate::{
    Codec, CodecExtra, Depacketizer, H264Depacketizer, H264Packetizer, H265Depacketizer,
    H265Packetizer, H266Depacketizer, H266Packetizer, PacketError, Packetizer, units,
};

#[test]
fn of_several_sets_of_a_kind_the_latest_goes() {
    let end = &mut H264Packetizer::default();
    let sets = payload(&["6701", "6702", "6803", "6504"]);
    sends(end, 1200, &sets, &["780002670200026803", "6504"]);
    assert_eq!(
        end.packetize_unit(1200, &bytes("6701")),
        Ok(vec![bytes("6701")])
    );
}

#[test]
fn a_set_waits_for_the_other() {
    let end = &mut H264Packetizer::default();
    sends(end, 1200, &payload(&["6803", "6504"]), &["6504"]);
    sends(
        end,
        1200,
        &payload(&["6701", "6505"]),
        &["780002670100026803", "6505"],
    );
}

/// A set that no packet holds is dropped, and goes in fragments as a unit as it is.
#[test]
fn a_set_that_is_too_long() {
    let end = &mut H265Packetizer::default();
    end.with_max_packet_size(6);
    let sets = payload(&["4201010203040506", "4401c1", "2601af"]);
    sends(end, 1200, &sets, &["4401c1", "2601af"]);
    let sps = end.packetize_unit(1200, &bytes("4201010203040506"));
    assert_eq!(sps, Ok(vec![bytes("6201a1010203"), bytes("620161040506")]));
}

#[test]
fn a_unit_that_is_a_bare_header() {
    sends(
        &mut H265Packetizer::default(),
        1200,
        &bytes("4801"),
        &["4801"],
    );
    sends(
        &mut H266Packetizer::default(),
        1200,
        &bytes("00a9"),
        &["00a9"],
    );
    let (h265, h266) = (
        &mut H265Depacketizer::default(),
        &mut H266Depacketizer::default(),
    );
    refuses(h265, "4801", PacketError::ErrShortPacket);
    refuses(h266, "00a9", PacketError::ErrShortPacket);
    writes(h265, &["0201aa"], "00000001 0201aa");
    writes(h266, &["0009aa"], "00000001 0009aa");
}

#[test]
fn units_without_a_whole_header() {
    let (mut h264, mut h265) = (H264Packetizer::default(), H265Packetizer::default());
    assert_eq!(h264.packetize_unit(1200, &[]), Ok(vec![]));
    assert_eq!(h264.packetize_unit(1200, &[0x65]), Ok(vec![vec![0x65]]));
    assert_eq!(h265.packetize_unit(1200, &[0x26]), Ok(vec![]));
    assert_eq!(
        h265.packetize_unit(1200, &[0x26, 1]),
        Ok(vec![vec![0x26, 1]])
    );
}

#[test]
fn limits_without_room_for_fragments() {
    let unit = bytes("0201010203040506");
    let mut h264 = H264Packetizer::default();
    assert_eq!(h264.packetize(2, &unit), Ok(vec![]));
    assert_eq!(h264.packetize(3, &unit).unwrap().len(), 7);
    let mut h265 = H265Packetizer::default();
    assert_eq!(h265.packetize(3, &bytes("0201aa")), Ok(vec![]));
    assert_eq!(h265.packetize(4, &unit).unwrap().len(), 6);
    h265.with_donl(true);
    assert_eq!(h265.packetize(5, &unit), Ok(vec![]));
    assert_eq!(h265.packetize(6, &unit).unwrap().len(), 3);
}

/// A long SEI message before a picture: two packets have E, and the last alone the marker.
#[test]
fn an_access_unit_with_two_tails() {
    let access_unit = payload(&["4e01 010203040506070809", "2601 010203040506070809"]);
    let packets = H265Packetizer::default().packetize(10, &access_unit);
    let wanted = [
        "6201a701020304050607",
        "6201670809",
        "62019301020304050607",
        "6201530809",
    ];
    assert_eq!(packets, Ok(wanted.map(bytes).to_vec()));
    let end = H265Depacketizer::default();
    let tails = wanted
        .map(bytes)
        .map(|packet| end.is_partition_tail(false, &packet));
    assert_eq!(tails, [false, true, false, true]);
}

#[test]
fn more_is_written_than_the_hint_says() {
    let packet = [bytes("41"), vec![0xaa; 99]].concat();
    let (mut out, mut extra) = (Vec::new(), Default::default());
    let mut end = H264Depacketizer::default();
    for _ in 0..50 {
        end.depacketize(&packet, &mut out, &mut extra).unwrap();
    }
    assert_eq!((out.len(), end.out_size_hint(50 * 100)), (5200, Some(5020)));
}

/// One packet whose Annex B text is of two units, the second of a keyframe of which nothing is told;
/// and an aggregate with a fragment in it. Behind lengths they are what came, and not plain.
#[test]
fn a_unit_in_a_unit() {
    let packet = bytes("41aa 00000001 6588");
    let (mut out, mut extra) = (Vec::new(), CodecExtra::None);
    let h264 = &mut H264Depacketizer::default();
    assert_eq!(h264.depacketize(&packet, &mut out, &mut extra), Ok(()));
    assert!(matches!(extra, CodecExtra::H264(told) if !told.is_keyframe));
    assert_eq!(units(Codec::H264, &out).nth(1), Some(&bytes("6588")[..]));
    h264.is_avc = true;
    writes(h264, &["41aa 00000001 6588"], "00000008 41aa 00000001 6588");
    assert!(!Codec::H264.is_plain_unit(&packet));

    let h265 = &mut H265Depacketizer::default();
    h265.is_avc = true;
    writes(
        h265,
        &["6001 0003 4201aa 0003 620193"],
        "00000003 4201aa 00000003 620193",
    );
    assert!(!Codec::H265.is_plain_unit(&bytes("620193")));
}
